#include <core.p4>
parser CocoonParser<H, M>(packet_in b, out H h, inout M m);
control CocoonIngress<H, M>(inout H h, inout M m, in bit<16> port, out bit<8> verdict, out bit<16> egress_port, out bit<16> group);
control CocoonEgress<H, M>(inout H h, inout M m, in bit<64> rid, out bit<8> verdict, out bit<16> egress_port);
control CocoonDeparser<H>(packet_out b, in H h);
package CocoonSwitch<H, M>(CocoonParser<H, M> p, CocoonIngress<H, M> i, CocoonEgress<H, M> e, CocoonDeparser<H> d);
header ht_e {
  bit<8> f_tag;
}
struct Headers {
  ht_e h_e;
}
struct Meta {
  bit<8> site;
}
parser Prs(packet_in b, out Headers h, inout Meta m) {
  state start {
    b.extract(h.h_e);
    transition accept;
  }
}
control Ing(inout Headers h, inout Meta m, in bit<16> port, out bit<8> verdict, out bit<16> egress_port, out bit<16> group) {
  apply {
    verdict = 8w0;
    egress_port = 16w0;
    group = 16w0;
    if ((h.h_e.f_tag == 8w1)) {
      verdict = 8w1;
      egress_port = 16w1;
      return;
    } else {
      verdict = 8w1;
      egress_port = 16w2;
      return;
    }
  }
}
control Egr(inout Headers h, inout Meta m, in bit<64> rid, out bit<8> verdict, out bit<16> egress_port) {
  apply {
    verdict = 8w0;
    egress_port = 16w0;
  }
}
control Dep(packet_out b, in Headers h) {
  apply {
    b.emit(h.h_e);
  }
}
CocoonSwitch(Prs(), Ing(), Egr(), Dep()) main;
