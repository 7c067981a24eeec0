#include <core.p4>
parser CocoonParser<H, M>(packet_in b, out H h, inout M m);
control CocoonIngress<H, M>(inout H h, inout M m, in bit<16> port, out bit<8> verdict, out bit<16> egress_port, out bit<16> group);
control CocoonEgress<H, M>(inout H h, inout M m, in bit<64> rid, out bit<8> verdict, out bit<16> egress_port);
control CocoonDeparser<H>(packet_out b, in H h);
package CocoonSwitch<H, M>(CocoonParser<H, M> p, CocoonIngress<H, M> i, CocoonEgress<H, M> e, CocoonDeparser<H> d);
header ht_ip {
  bit<32> f_src;
  bit<32> f_dst;
}
struct Headers {
  ht_ip h_ip;
}
struct Meta {
  bit<8> site;
  bit<16> k0_0;
  bit<16> k0_1;
  bit<32> r0;
  bit<32> k1_0;
  bit<32> k1_1;
  bit<1> r1;
  bit<32> k2_0;
  bit<1> r2;
  bit<32> k3_0;
  bit<16> r3;
  bit<32> k4_0;
  bit<16> r4;
}
parser Prs(packet_in b, out Headers h, inout Meta m) {
  state start {
    b.extract(h.h_ip);
    transition accept;
  }
}
control Ing(inout Headers h, inout Meta m, in bit<16> port, out bit<8> verdict, out bit<16> egress_port, out bit<16> group) {
  action a0(bit<32> v) { m.r0 = v; }
  table t0 {
    key = { m.k0_0 : ternary; m.k0_1 : ternary; }
    actions = { a0; }
    default_action = a0(32w0);
  }
  action a1(bit<1> v) { m.r1 = v; }
  table t1 {
    key = { m.k1_0 : ternary; m.k1_1 : ternary; }
    actions = { a1; }
    default_action = a1(1w0);
  }
  action a2(bit<1> v) { m.r2 = v; }
  table t2 {
    key = { m.k2_0 : ternary; }
    actions = { a2; }
    default_action = a2(1w0);
  }
  action a3(bit<16> v) { m.r3 = v; }
  table t3 {
    key = { m.k3_0 : ternary; }
    actions = { a3; }
    default_action = a3(16w0);
  }
  action a4(bit<16> v) { m.r4 = v; }
  table t4 {
    key = { m.k4_0 : ternary; }
    actions = { a4; }
    default_action = a4(16w0);
  }
  apply {
    verdict = 8w0;
    egress_port = 16w0;
    group = 16w0;
    m.k0_0 = 16w1;
    m.k0_1 = port;
    t0.apply();
    if ((!(h.h_ip.f_src == m.r0))) {
      return;
    }
    m.k1_0 = h.h_ip.f_src;
    m.k1_1 = h.h_ip.f_dst;
    t1.apply();
    if ((!(m.r1 == 1w1))) {
      return;
    }
    m.k2_0 = h.h_ip.f_dst;
    t2.apply();
    m.k3_0 = h.h_ip.f_dst;
    t3.apply();
    if ((!((m.r2 == 1w1) && (m.r3 == 16w1)))) {
      return;
    }
    m.k4_0 = h.h_ip.f_dst;
    t4.apply();
    verdict = 8w1;
    egress_port = m.r4;
    return;
  }
}
control Egr(inout Headers h, inout Meta m, in bit<64> rid, out bit<8> verdict, out bit<16> egress_port) {
  apply {
    verdict = 8w0;
    egress_port = 16w0;
  }
}
control Dep(packet_out b, in Headers h) {
  apply {
    b.emit(h.h_ip);
  }
}
CocoonSwitch(Prs(), Ing(), Egr(), Dep()) main;
