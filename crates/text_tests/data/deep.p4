#include <core.p4>
parser CocoonParser<H, M>(packet_in b, out H h, inout M m);
control CocoonIngress<H, M>(inout H h, inout M m, in bit<16> port, out bit<8> verdict, out bit<16> egress_port, out bit<16> group);
control CocoonEgress<H, M>(inout H h, inout M m, in bit<64> rid, out bit<8> verdict, out bit<16> egress_port);
control CocoonDeparser<H>(packet_out b, in H h);
package CocoonSwitch<H, M>(CocoonParser<H, M> p, CocoonIngress<H, M> i, CocoonEgress<H, M> e, CocoonDeparser<H> d);
struct Headers {
}
struct Meta {
  bit<16> k0;
}
parser Prs(packet_in b, out Headers h, inout Meta m) {
  state start {
    transition accept;
  }
}
control Ing(inout Headers h, inout Meta m, in bit<16> port, out bit<8> verdict, out bit<16> egress_port, out bit<16> group) {
  apply {
    verdict = 8w0;
    egress_port = 16w0;
    group = 16w0;
    m.k0 = "510 (~"m.k0"510 )";
    if (("508 (~"m.k0"508 )" == port)) {
    }
    m.k0 = m.k0"512 [15:0]";
  }
}
control Egr(inout Headers h, inout Meta m, in bit<64> rid, out bit<8> verdict, out bit<16> egress_port) {
  apply {
    verdict = 8w0;
    egress_port = 16w0;
  }
}
control Dep(packet_out b, in Headers h) {
  apply {
  }
}
CocoonSwitch(Prs(), Ing(), Egr(), Dep()) main;
