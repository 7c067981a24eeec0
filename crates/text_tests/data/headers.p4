#include <core.p4>
parser CocoonParser<H, M>(packet_in b, out H h, inout M m);
control CocoonIngress<H, M>(inout H h, inout M m, in bit<16> port, out bit<8> verdict, out bit<16> egress_port, out bit<16> group);
control CocoonEgress<H, M>(inout H h, inout M m, in bit<64> rid, out bit<8> verdict, out bit<16> egress_port);
control CocoonDeparser<H>(packet_out b, in H h);
package CocoonSwitch<H, M>(CocoonParser<H, M> p, CocoonIngress<H, M> i, CocoonEgress<H, M> e, CocoonDeparser<H> d);
header ht_a {
"64   bit<1> f_#;
"}
header ht_b {
"64   bit<1> f_#;
"}
header ht_c {
"64   bit<1> f_#;
"}
header ht_d {
"64   bit<1> f_#;
"}
header ht_e {
"64   bit<1> f_#;
"}
header ht_f {
"64   bit<1> f_#;
"}
header ht_g {
"64   bit<1> f_#;
"}
header ht_h {
"64   bit<1> f_#;
"}
header ht_i {
"64   bit<1> f_#;
"}
header ht_j {
"64   bit<1> f_#;
"}
header ht_k {
"64   bit<1> f_#;
"}
header ht_l {
"64   bit<1> f_#;
"}
header ht_m {
"64   bit<1> f_#;
"}
header ht_n {
"64   bit<1> f_#;
"}
header ht_o {
"64   bit<1> f_#;
"}
header ht_p {
"64   bit<1> f_#;
"}
struct Headers {
  ht_a h_a;
  ht_b h_b;
  ht_c h_c;
  ht_d h_d;
  ht_e h_e;
  ht_f h_f;
  ht_g h_g;
  ht_h h_h;
  ht_i h_i;
  ht_j h_j;
  ht_k h_k;
  ht_l h_l;
  ht_m h_m;
  ht_n h_n;
  ht_o h_o;
  ht_p h_p;
}
struct Meta {
}
parser Prs(packet_in b, out Headers h, inout Meta m) {
  state start {
    b.extract(h.h_a);
    b.extract(h.h_b);
    b.extract(h.h_c);
    b.extract(h.h_d);
    b.extract(h.h_e);
    b.extract(h.h_f);
    b.extract(h.h_g);
    b.extract(h.h_h);
    b.extract(h.h_i);
    b.extract(h.h_j);
    b.extract(h.h_k);
    b.extract(h.h_l);
    b.extract(h.h_m);
    b.extract(h.h_n);
    b.extract(h.h_o);
    b.extract(h.h_p);
    transition accept;
  }
}
control Ing(inout Headers h, inout Meta m, in bit<16> port, out bit<8> verdict, out bit<16> egress_port, out bit<16> group) {
  apply {
    verdict = 8w0;
    egress_port = 16w0;
    group = 16w0;
    h.h_p.f_63 = h.h_a.f_0;
  }
}
control Egr(inout Headers h, inout Meta m, in bit<64> rid, out bit<8> verdict, out bit<16> egress_port) {
  apply {
    verdict = 8w0;
    egress_port = 16w0;
  }
}
control Dep(packet_out b, in Headers h) {
  apply {
    b.emit(h.h_a);
    b.emit(h.h_b);
    b.emit(h.h_c);
    b.emit(h.h_d);
    b.emit(h.h_e);
    b.emit(h.h_f);
    b.emit(h.h_g);
    b.emit(h.h_h);
    b.emit(h.h_i);
    b.emit(h.h_j);
    b.emit(h.h_k);
    b.emit(h.h_l);
    b.emit(h.h_m);
    b.emit(h.h_n);
    b.emit(h.h_o);
    b.emit(h.h_p);
  }
}
CocoonSwitch(Prs(), Ing(), Egr(), Dep()) main;
