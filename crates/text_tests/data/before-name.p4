#include <core.p4>
parser CocoonParser<H, M>(packet_in b, out H h, inout M m);
control CocoonIngress<H, M>(inout H h, inout M m, in bit<16> port, out bit<8> verdict, out bit<16> egress_port, out bit<16> group);
control CocoonEgress<H, M>(inout H h, inout M m, in bit<64> rid, out bit<8> verdict, out bit<16> egress_port);
control CocoonDeparser<H>(packet_out b, in H h);
package CocoonSwitch<H, M>(CocoonParser<H, M> p, CocoonIngress<H, M> i, CocoonEgress<H, M> e, CocoonDeparser<H> d);
header ht_e {
  bit<8> f_