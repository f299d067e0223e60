//! The calls of `ipv4` and of the four files of `ezpkt`.

use crate::reader::{Differs, Reader, same};
use ezpkt::icmp4::IcmpFlow;
use ezpkt::ip4::IpFrag;
use ezpkt::tcp4::{TcpFlow, TcpSeg};
use ezpkt::udp4::{UdpDgram, UdpFlow};
use pkt::Packet;
use pkt::ipv4::{icmp_echo_hdr, icmp_hdr, ip_csum, ip_hdr, tcp_hdr, udp_hdr};
use std::net::SocketAddrV4;

fn bytes(p: impl Into<Packet>) -> Vec<u8> {
    p.into().to_vec()
}

pub fn ipv4(kind: u8, r: &mut Reader) -> Result<(), Differs> {
    let pkt = Packet::default();
    match kind {
        1 => {
            let sum = ip_csum(&r.payload(65_535)?);
            return same(r.u16()?, sum);
        }
        2 => drop(pkt.push(ip_header(r)?)),
        3 => drop(pkt.push(tcp_header(r)?)),
        4 => drop(pkt.push(udp_header(r)?)),
        _ => icmp_header(r, &pkt)?,
    }
    let got = pkt.to_vec();
    same(r.bytes(got.len())?, &got)
}

fn ip_header(r: &mut Reader) -> Result<ip_hdr, Differs> {
    let mut h = ip_hdr {
        tos: r.u8()?,
        tot_len: r.u16()?.to_be(),
        id: r.u16()?.to_be(),
        frag_off: r.u16()?.to_be(),
        ttl: r.u8()?,
        protocol: r.u8()?,
        saddr: r.u32()?.to_be(),
        daddr: r.u32()?.to_be(),
        ..Default::default()
    };
    h.calc_csum();
    Ok(h)
}

fn tcp_header(r: &mut Reader) -> Result<tcp_hdr, Differs> {
    let mut h = tcp_hdr::new(r.u16()?, r.u16()?);
    h.set_seq(r.u32()?);
    h.ack = r.u32()?.to_be();
    h.flags = r.u8()?;
    h.set_csum(r.u16()?);
    Ok(h)
}

fn udp_header(r: &mut Reader) -> Result<udp_hdr, Differs> {
    let mut h = udp_hdr::default();
    h.set_sport(r.u16()?).set_dport(r.u16()?);
    h.set_len(r.u16()?).set_csum(r.u16()?);
    Ok(h)
}

fn icmp_header(r: &mut Reader, pkt: &Packet) -> Result<(), Differs> {
    pkt.push(icmp_hdr {
        typ: r.u8()?,
        code: r.u8()?,
        csum: r.u16()?.to_be(),
    });
    pkt.push(icmp_echo_hdr {
        id: r.u16()?.to_be(),
        seq: r.u16()?.to_be(),
    });
    Ok(())
}

fn template(r: &mut Reader) -> Result<ip_hdr, Differs> {
    let mut h = ip_hdr {
        tos: r.u8()?,
        ..Default::default()
    };
    h.set_id(r.u16()?);
    let flags = r.u8()?;
    same(flags < 4, true)?;
    h.set_df(flags & 1 != 0).set_evil(flags & 2 != 0);
    h.set_ttl(r.u8()?).set_protocol(r.u8()?);
    h.set_saddr(r.addr()?).set_daddr(r.addr()?);
    Ok(h)
}

pub fn ip4(kind: u8, r: &mut Reader) -> Result<(), Differs> {
    let frag = IpFrag::new(template(r)?, r.payload(65_515)?);
    let got = match kind {
        0x10 => frag.fragment(r.u16()?, r.u16()?, true),
        0x11 => frag.tail(r.u16()?, true),
        _ => frag.datagram(true),
    };
    r.answer(&got.to_vec())
}

pub fn udp4(kind: u8, r: &mut Reader) -> Result<(), Differs> {
    let mut flow = UdpFlow::new(r.socket()?, r.socket()?, true);
    let (payload, bits, srcip) = (r.payload(65_507)?, r.u8()?, r.addr()?);
    same(bits < 8 && (bits & 1 != 0 || srcip.is_unspecified()), true)?;
    let mut built = |field: u16| -> Vec<u8> {
        let mut d: UdpDgram = match kind {
            0x20 | 0x22 => flow.client_dgram(&payload),
            _ => flow.server_dgram(&payload),
        };
        d = if bits & 1 != 0 { d.srcip(srcip) } else { d };
        d = if bits & 2 != 0 { d.frag_off(field) } else { d };
        bytes(if bits & 4 != 0 { d.csum() } else { d })
    };
    if kind >= 0x22 {
        same(bits & 2, 2)?;
        let all: Vec<u8> = (0..=u16::MAX).flat_map(built).collect();
        return r.digest(&all);
    }
    let field = r.u16()?;
    same(bits & 2 != 0 || field == 0, true)?;
    r.answer(&built(field))
}

pub struct Icmp {
    flow: IcmpFlow,
}

/// The flow's two numbers, which must be the next in the file.
fn numbers(flow: &IcmpFlow, r: &mut Reader) -> Result<(), Differs> {
    let shown = format!("ping_seq: {}, pong_seq: {} }}", r.u16()?, r.u16()?);
    same(format!("{flow:?}").ends_with(&shown), true)
}

pub fn icmp_new(r: &mut Reader) -> Result<Icmp, Differs> {
    let flow = IcmpFlow::new(r.addr()?, r.addr()?, true);
    numbers(&flow, r)?;
    Ok(Icmp { flow })
}

impl Icmp {
    pub fn call(&mut self, kind: u8, r: &mut Reader) -> Result<(), Differs> {
        let payload = r.payload(65_507)?;
        let many = kind >= 0x33;
        let times = if many { r.u32()? } else { 1 };
        same(times <= 100_000, true)?;
        let mut all = Vec::new();
        for _ in 0..times {
            all.extend(match kind {
                0x31 | 0x33 => bytes(self.flow.echo(&payload)),
                _ => bytes(self.flow.echo_reply(&payload)),
            });
        }
        if many { r.digest(&all) } else { r.answer(&all) }?;
        numbers(&self.flow, r)
    }
}

pub struct Tcp {
    flow: TcpFlow,
    ends: [SocketAddrV4; 2],
}

pub fn tcp_new(r: &mut Reader) -> Result<Tcp, Differs> {
    let ends = [r.socket()?, r.socket()?];
    let flow = TcpFlow::new(ends[0], ends[1], r.u32()?, r.u32()?, true);
    let tcp = Tcp { flow, ends };
    tcp.state(r)?;
    Ok(tcp)
}

impl Tcp {
    /// The flow must be a new one with the next two numbers in the file.
    fn state(&self, r: &mut Reader) -> Result<(), Differs> {
        let [cl, sv] = self.ends;
        let expected = TcpFlow::new(cl, sv, r.u32()?, r.u32()?, true);
        same(&self.flow, &expected)
    }

    pub fn call(&mut self, kind: u8, r: &mut Reader) -> Result<(), Differs> {
        match kind {
            0x41..=0x44 => self.set(kind, r)?,
            0x45..=0x4a | 0x4e | 0x4f => self.one(kind, r)?,
            0x4b => r.packets(&self.flow.open().into_iter().map(bytes).collect::<Vec<_>>())?,
            0x4c | 0x4d => self.close(kind, r)?,
            _ => self.message(kind, r)?,
        }
        self.state(r)
    }

    fn set(&mut self, kind: u8, r: &mut Reader) -> Result<(), Differs> {
        match kind {
            0x41 => {
                let (cl, sv) = r.sides()?;
                let old = self.flow.push_state(cl, sv);
                same(r.sides()?, old)?;
            }
            0x42 => self.flow.pop_state(r.sides()?),
            0x43 => self.flow.client_hole(r.u32()?),
            _ => self.flow.server_hole(r.u32()?),
        }
        Ok(())
    }

    fn one(&mut self, kind: u8, r: &mut Reader) -> Result<(), Differs> {
        let flow = &mut self.flow;
        let whole = |seg: TcpSeg| bytes(seg);
        let got = match kind {
            0x45 => whole(flow.client_data_segment(&r.payload(65_495)?)),
            0x46 => whole(flow.server_data_segment(&r.payload(65_495)?)),
            0x47 => whole(flow.client_ack()),
            0x48 => whole(flow.server_ack()),
            0x49 => flow.client_hdr(r.u32()?, r.u16()?),
            0x4a => flow.server_hdr(r.u32()?, r.u16()?),
            0x4e => bytes(flow.client_reset()),
            _ => bytes(flow.server_reset()),
        };
        r.answer(&got)
    }

    fn close(&mut self, kind: u8, r: &mut Reader) -> Result<(), Differs> {
        let got = match kind {
            0x4c => self.flow.client_close(),
            _ => self.flow.server_close(),
        };
        r.packets(&got.into_iter().map(bytes).collect::<Vec<_>>())
    }

    fn message(&mut self, kind: u8, r: &mut Reader) -> Result<(), Differs> {
        let (payload, ack) = (r.payload(65_495)?, r.flag()?);
        let flow = &mut self.flow;
        let mut sent = |field: u16| -> Vec<Vec<u8>> {
            let got = match kind {
                0x50 | 0x52 => flow.client_message(&payload, ack, field),
                _ => flow.server_message(&payload, ack, field),
            };
            got.into_iter().map(bytes).collect()
        };
        if kind >= 0x52 {
            let all: Vec<u8> = (0..=u16::MAX).flat_map(|f| sent(f).concat()).collect();
            return r.digest(&all);
        }
        let field = r.u16()?;
        r.packets(&sent(field))
    }
}
