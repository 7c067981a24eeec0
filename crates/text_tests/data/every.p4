#include <core.p4>
parser CocoonParser<H, M>(packet_in b, out H h, inout M m);
control CocoonIngress<H, M>(inout H h, inout M m, in bit<16> port, out bit<8> verdict, out bit<16> egress_port, out bit<16> group);
control CocoonEgress<H, M>(inout H h, inout M m, in bit<64> rid, out bit<8> verdict, out bit<16> egress_port);
control CocoonDeparser<H>(packet_out b, in H h);
package CocoonSwitch<H, M>(CocoonParser<H, M> p, CocoonIngress<H, M> i, CocoonEgress<H, M> e, CocoonDeparser<H> d);
header ht_e {
  bit<8> f_tag;
  bit<16> f_kind;
}
header ht_x_9 {
  bit<64> f_0;
}
struct Headers {
  ht_e h_e;
  ht_x_9 h_x_9;
}
struct Meta {
  bit<8> site;
  bit<16> k0;
  bit<32> k1;
  bit<1> r2;
  bit<64> v3;
}
parser Prs(packet_in b, out Headers h, inout Meta m) {
  state start {
    b.extract(h.h_e);
    b.extract(h.h_x_9);
    transition accept;
  }
}
control Ing(inout Headers h, inout Meta m, in bit<16> port, out bit<8> verdict, out bit<16> egress_port, out bit<16> group) {
  action a0(bit<1> v) { m.r2 = v; }
  table t0 {
    key = { m.k0 : exact; m.k1 : exact; }
    actions = { a0; }
    default_action = a0(1w0);
  }
  action a7(bit<16> v) { m.k0 = v; }
  table t7 {
    key = { m.k1 : ternary; }
    actions = { a7; }
    default_action = a7(16w0);
  }
  apply {
    verdict = 8w0;
    egress_port = 16w0;
    group = 16w0;
    m.k0 = port;
    h.h_e.f_kind = m.k0;
    h.h_x_9.f_0 = 64w18446744073709551615;
    m.k0 = (port + 16w1);
    m.k0 = (port - h.h_e.f_kind);
    m.k0 = (m.k0 & 16w65535);
    m.k0 = (m.k0 | 16w0);
    m.k0 = (m.k0 ^ m.k0);
    m.k0 = (h.h_e.f_tag ++ m.site);
    m.k0 = (~m.k0);
    m.k1 = h.h_x_9.f_0[63:32];
    m.r2 = 128w340282366920938463463374607431768211455[127:127];
    m.k0 = (true ? port : (false ? 16w1 : 16w2));
    if ((port == 16w1)) {
      t0.apply();
    }
    if ((port != 16w1)) {
    }
    if ((port < 16w1)) {
      return;
    } else {
      t7.apply();
    }
    if ((port <= 16w1)) {
    } else {
      verdict = 8w2;
    }
    if (((port > 16w1) && (port >= 16w2))) {
      if (((!true) || false)) {
        group = m.k0;
        verdict = 8w2;
      } else {
        egress_port = port;
        if (true) {
          verdict = 8w1;
        } else {
          verdict = 8w0;
        }
      }
      return;
    }
    return;
    return;
  }
}
control Egr(inout Headers h, inout Meta m, in bit<64> rid, out bit<8> verdict, out bit<16> egress_port) {
  action a8(bit<8> v) { m.site = v; }
  table t8 {
    key = { m.site : exact; }
    actions = { a8; }
    default_action = a8(8w0);
  }
  apply {
    verdict = 8w0;
    egress_port = 16w0;
    t8.apply();
    m.v3 = rid;
    egress_port = rid[15:0];
    verdict = 8w1;
  }
}
control Dep(packet_out b, in Headers h) {
  apply {
    b.emit(h.h_e);
    b.emit(h.h_x_9);
  }
}
CocoonSwitch(Prs(), Ing(), Egr(), Dep()) main;
