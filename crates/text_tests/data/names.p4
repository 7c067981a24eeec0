#include <core.p4>
parser CocoonParser<H, M>(packet_in b, out H h, inout M m);
control CocoonIngress<H, M>(inout H h, inout M m, in bit<16> port, out bit<8> verdict, out bit<16> egress_port, out bit<16> group);
control CocoonEgress<H, M>(inout H h, inout M m, in bit<64> rid, out bit<8> verdict, out bit<16> egress_port);
control CocoonDeparser<H>(packet_out b, in H h);
package CocoonSwitch<H, M>(CocoonParser<H, M> p, CocoonIngress<H, M> i, CocoonEgress<H, M> e, CocoonDeparser<H> d);
header ht_h {
  bit<8> f_f;
}
header ht_"1000 a" {
  bit<8> f_"1000 a";
}
header ht__ {
  bit<8> f_0;
}
struct Headers {
  ht_h h_h;
  ht_"1000 a" h_"1000 a";
  ht__ h__;
}
struct Meta {
  bit<8> m0;
  bit<8> "1000 a"1;
}
parser Prs(packet_in b, out Headers h, inout Meta m) {
  state start {
    b.extract(h.h_h);
    b.extract(h.h_"1000 a");
    b.extract(h.h__);
    transition accept;
  }
}
control Ing(inout Headers h, inout Meta m, in bit<16> port, out bit<8> verdict, out bit<16> egress_port, out bit<16> group) {
  apply {
    verdict = 8w0;
    egress_port = 16w0;
    group = 16w0;
    h.h_h.f_f = h.h_"1000 a".f_"1000 a";
    h.h_"1000 a".f_"1000 a" = h.h__.f_0;
    m.m0 = m."1000 a"1;
  }
}
control Egr(inout Headers h, inout Meta m, in bit<64> rid, out bit<8> verdict, out bit<16> egress_port) {
  apply {
    verdict = 8w0;
    egress_port = 16w0;
  }
}
control Dep(packet_out b, in Headers h) {
  apply {
    b.emit(h.h_h);
    b.emit(h.h_"1000 a");
    b.emit(h.h__);
  }
}
CocoonSwitch(Prs(), Ing(), Egr(), Dep()) main;
