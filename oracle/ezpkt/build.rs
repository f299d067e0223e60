use sources::Module;

fn main() {
    sources::emit(&[
        Module {
            file: "ezpkt/src/ip4.rs",
            declaration: "#[allow(clippy::all)]\npub mod ip4;",
        },
        Module {
            file: "ezpkt/src/udp4.rs",
            declaration: "#[allow(clippy::all)]\npub mod udp4;",
        },
        Module {
            file: "ezpkt/src/icmp4.rs",
            declaration: "#[allow(clippy::all)]\npub mod icmp4;",
        },
        Module {
            file: "ezpkt/src/tcp4.rs",
            declaration: "#[allow(clippy::all)]\npub mod tcp4;",
        },
    ]);
}
