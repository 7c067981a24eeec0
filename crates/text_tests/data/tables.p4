#include <core.p4>
parser CocoonParser<H, M>(packet_in b, out H h, inout M m);
control CocoonIngress<H, M>(inout H h, inout M m, in bit<16> port, out bit<8> verdict, out bit<16> egress_port, out bit<16> group);
control CocoonEgress<H, M>(inout H h, inout M m, in bit<64> rid, out bit<8> verdict, out bit<16> egress_port);
control CocoonDeparser<H>(packet_out b, in H h);
package CocoonSwitch<H, M>(CocoonParser<H, M> p, CocoonIngress<H, M> i, CocoonEgress<H, M> e, CocoonDeparser<H> d);
struct Headers {
}
struct Meta {
  bit<16> k0;
  bit<16> r0;
}
parser Prs(packet_in b, out Headers h, inout Meta m) {
  state start {
    transition accept;
  }
}
control Ing(inout Headers h, inout Meta m, in bit<16> port, out bit<8> verdict, out bit<16> egress_port, out bit<16> group) {
"255   action a#(bit<16> v) { m.r0 = v; }
  table t# {
    key = { m.k0 : exact; }
    actions = { a#; }
    default_action = a#(16w0);
  }
"  apply {
    verdict = 8w0;
    egress_port = 16w0;
    group = 16w0;
"255     t#.apply();
"  }
}
control Egr(inout Headers h, inout Meta m, in bit<64> rid, out bit<8> verdict, out bit<16> egress_port) {
  action a4294967294(bit<16> v) { m.r0 = v; }
  table t4294967294 {
    key = { m.k0 : ternary; m.r0 : ternary; }
    actions = { a4294967294; }
    default_action = a4294967294(16w0);
  }
  apply {
    verdict = 8w0;
    egress_port = 16w0;
    t4294967294.apply();
  }
}
control Dep(packet_out b, in Headers h) {
  apply {
  }
}
CocoonSwitch(Prs(), Ing(), Egr(), Dep()) main;
