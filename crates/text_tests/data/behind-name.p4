;
}
struct Headers {
  ht_e h_e;
}
struct Meta {
}
parser Prs(packet_in b, out Headers h, inout Meta m) {
  state start {
    b.extract(h.h_e);
    transition accept;
  }
}
control Ing(inout Headers h, inout Meta m, in bit<16> port, out bit<8> verdict, out bit<16> egress_port, out bit<16> group) {
  apply {
    verdict = 8w0;
    egress_port = 16w0;
    group = 16w0;
  }
}
control Egr(inout Headers h, inout Meta m, in bit<64> rid, out bit<8> verdict, out bit<16> egress_port) {
  apply {
    verdict = 8w0;
    egress_port = 16w0;
  }
}
control Dep(packet_out b, in Headers h) {
  apply {
    b.emit(h.h_e);
  }
}
CocoonSwitch(Prs(), Ing(), Egr(), Dep()) main;
