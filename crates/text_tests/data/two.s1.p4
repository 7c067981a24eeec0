#include <core.p4>
parser CocoonParser<H, M>(packet_in b, out H h, inout M m);
control CocoonIngress<H, M>(inout H h, inout M m, in bit<16> port, out bit<8> verdict, out bit<16> egress_port, out bit<16> group);
control CocoonEgress<H, M>(inout H h, inout M m, in bit<64> rid, out bit<8> verdict, out bit<16> egress_port);
control CocoonDeparser<H>(packet_out b, in H h);
package CocoonSwitch<H, M>(CocoonParser<H, M> p, CocoonIngress<H, M> i, CocoonEgress<H, M> e, CocoonDeparser<H> d);
header ht_ip {
  bit<32> f_src;
  bit<32> f_dst;
}
header ht_l4 {
  bit<16> f_port;
}
struct Headers {
  ht_ip h_ip;
  ht_l4 h_l4;
}
struct Meta {
  bit<8> site;
  bit<16> k0_0;
  bit<32> k0_1;
  bit<16> r0;
}
parser Prs(packet_in b, out Headers h, inout Meta m) {
  state start {
    b.extract(h.h_ip);
    b.extract(h.h_l4);
    transition accept;
  }
}
control Ing(inout Headers h, inout Meta m, in bit<16> port, out bit<8> verdict, out bit<16> egress_port, out bit<16> group) {
  action a0(bit<16> v) { m.r0 = v; }
  table t0 {
    key = { m.k0_0 : ternary; m.k0_1 : ternary; }
    actions = { a0; }
    default_action = a0(16w0);
  }
  apply {
    verdict = 8w0;
    egress_port = 16w0;
    group = 16w0;
    m.k0_0 = port;
    m.k0_1 = h.h_ip.f_dst;
    t0.apply();
    if ((m.r0 == 16w0)) {
      return;
    }
    verdict = 8w2;
    group = m.r0;
  }
}
control Egr(inout Headers h, inout Meta m, in bit<64> rid, out bit<8> verdict, out bit<16> egress_port) {
  apply {
    verdict = 8w0;
    egress_port = 16w0;
    verdict = 8w1;
    egress_port = rid[15:0];
  }
}
control Dep(packet_out b, in Headers h) {
  apply {
    b.emit(h.h_ip);
    b.emit(h.h_l4);
  }
}
CocoonSwitch(Prs(), Ing(), Egr(), Dep()) main;
