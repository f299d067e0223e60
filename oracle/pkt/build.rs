use sources::Module;

fn main() {
    sources::emit(&[
        Module {
            file: "pkt/src/ipv4.rs",
            declaration: "#[allow(clippy::all, non_camel_case_types)]\npub mod ipv4;",
        },
        Module {
            file: "pkt/src/packet.rs",
            declaration: "#[allow(clippy::all)]\nmod packet;",
        },
    ]);
}
