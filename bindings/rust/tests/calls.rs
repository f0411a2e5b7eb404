// SPDX-License-Identifier: MIT OR Apache-2.0
//! The crate over the real capture of `examples/`, and its errors.
use std::io;

use bpftap::{
    check, compare, cut, steps, steps_json, Cause, CutError, Error, Executed, Fault, Fed, Filter, Form, Insn, Listener, Look, Mode, Packet, Packets,
    Sameness, Span, Verdict, Writer,
};

/// 253 Ethernet frames; tcpdump counts 67 with UDP port 5353.
const VETH: &[u8] = include_bytes!("../../../examples/veth.pcap");

const UDP: [u8; 38] = [
    0xff, 0xff, 0xff, 0xff, 0xff, 0xff, 0, 1, 2, 3, 4, 5, 8, 0, 0x45, 0, 0, 0x18, 0, 0, 0, 0, 0x40, 17, 0, 0, 10, 0, 0, 1, 10, 0, 0, 2, 0, 53,
    0, 53,
];

#[test]
fn packets_are_filtered() {
    let dns = Filter::new("udp port 5353").unwrap();
    let packets: Vec<_> = Packets::new(VETH).unwrap().collect::<Result<_, _>>().unwrap();
    assert_eq!(packets.len(), 253);
    assert_eq!(packets.iter().filter(|packet| dns.matches(packet.data, packet.wire)).count(), 67);
}

/// A capture with nanoseconds, written by hand: record n has the second n, the nanosecond 123,456,789, 4 bytes with n, and n more on the wire.
fn numbered(count: u32) -> Vec<u8> {
    let header = [0x4d, 0x3c, 0xb2, 0xa1, 2, 0, 4, 0, 0, 0, 0, 0, 0, 0, 0, 0, 0, 0, 4, 0, 1, 0, 0, 0];
    let records = (0..count).flat_map(|n| [n, 123_456_789, 4, 4 + n, n]).flat_map(u32::to_le_bytes);
    header.into_iter().chain(records).collect()
}

#[test]
fn captures_have_more_records_than_a_batch() {
    for count in [1023, 1024, 1025, 3000] {
        let content = numbered(count);
        let spans = Packets::new(&content).unwrap().spans().unwrap();
        let wanted: Vec<_> = (0..count).map(|n| Span { offset: 24 + 20 * n as u64 + 16, captured: 4, wire: 4 + n }).collect();
        assert!(spans == wanted, "the spans of {count} records, which are {}", spans.len());
        let packets: Vec<_> = Packets::new(&content).unwrap().collect::<Result<_, _>>().unwrap();
        assert_eq!((packets.len(), packets.last().unwrap().data), (count as usize, (count - 1).to_le_bytes().as_slice()));
        // The wire length is above 1,000 from record 997 on.
        let (long, matched) = (Filter::new("len > 1000").unwrap(), count as usize - 997);
        for answers in [long.run_spans(&content, &spans), long.run_each(&packets)] {
            assert_eq!((answers.len(), answers.iter().filter(|&&answer| answer > 0).count()), (count as usize, matched));
        }
    }
}

#[test]
fn nanoseconds_are_whole() {
    let content = numbered(3);
    let packets = Packets::new(&content).unwrap();
    assert!(packets.form().nanoseconds);
    let mut writer = Writer::new(Vec::new(), packets.form()).unwrap();
    for (n, packet) in packets.enumerate() {
        let packet = packet.unwrap();
        assert_eq!((packet.seconds, packet.nanos), (n as u32, 123_456_789));
        writer.write(&packet).unwrap();
    }
    assert!(writer.into_inner() == content);
}

#[test]
fn a_torn_record_is_the_last_item() {
    let mut packets = Packets::new(&VETH[..200]).unwrap();
    assert!(packets.next().unwrap().is_ok() && packets.next().unwrap().is_ok());
    assert_eq!(packets.next().unwrap().unwrap_err().to_string(), "TornRecord 2");
    assert!(packets.next().is_none());
    assert_eq!(Packets::new(&VETH[..23]).unwrap_err().to_string(), "ShortHeader");
    assert_eq!(Packets::new(&[]).unwrap_err().to_string(), "ShortHeader");
}

#[test]
fn errors_have_a_name_and_a_place() {
    let error = Filter::new("port http").unwrap_err();
    assert_eq!((error.fault, error.place, error.number, error.to_string()), (Fault::BadWord, 5, None, "BadWord 5".to_owned()));
    assert_eq!(Filter::with_snap("ip", 0).unwrap_err().to_string(), "BadSnap");
    assert_eq!(" http".parse::<Filter>().unwrap_err().to_string(), "BadWord 1");
    // Their names are those of docs/FAULTS.md.
    let page = include_str!("../../../docs/FAULTS.md");
    for fault in [Fault::TextTooLong, Fault::JumpOut, Fault::TornRecord, Fault::BadCapacity, Fault::NoListener] {
        assert!(page.contains(&fault.to_string()), "{fault}");
    }
}

#[test]
fn errors_have_a_hint() {
    let hint = |expression: &str| Filter::new(expression).unwrap_err().hint(expression);
    assert_eq!(hint("icmp and proot 17").as_deref(), Some("did you mean `proto`?"));
    assert_eq!(hint("ip6").map(|hint| hint.lines().count()), Some(2));
    let long = "ip or ".repeat(1300) + " proot";
    assert_eq!(hint(&long).as_deref(), Some("did you mean `proto`?"));
    assert_eq!(Filter::with_snap("ip", 0).unwrap_err().hint("ip"), None);
    let error = compare("tcp", "icmp and proot 17", 1).unwrap_err();
    assert_eq!((error.number, error.hint("icmp and proot 17").as_deref()), (Some(2), Some("did you mean `proto`?")));
}

#[test]
fn answers_have_a_reason() {
    let udp = Filter::with_snap("udp", 20).unwrap();
    assert_eq!((udp.run(&UDP, 38), udp.run(&[], 38)), (20, 0));
    assert_eq!(udp.why(&UDP, 38).unwrap(), "Yes udp");
    assert_eq!(udp.why(&UDP[..23], 38).unwrap(), "Abort udp, byte 23 is not captured");
    assert_eq!(udp.decide(&UDP, 38).unwrap(), (Verdict::Yes, "udp".to_owned()));
    assert_eq!(udp.decide(&UDP[..23], 38).unwrap(), (Verdict::Abort, "udp, byte 23 is not captured".to_owned()));
    assert_eq!(udp.decide(&[0; 38], 38).unwrap().0, Verdict::No);
    assert_eq!(udp.program().len(), udp.image().unwrap().lines().count());
    let many = (0..40).map(|n| format!("port {n}")).collect::<Vec<_>>().join(" or ");
    assert!(Filter::new(&many).unwrap().image().unwrap().len() > 256);
}

#[test]
fn a_listener_keeps_reads_and_drops() {
    // Two records of 72 bytes: 32 of fields, and 38 of a frame up to a multiple of 8.
    let mut tap = Listener::open(Filter::new("udp").unwrap(), 38, 144, Mode::Buffered).unwrap();
    let packet = Packet { data: &UDP, wire: 60, seconds: 7, nanos: 123_456_789 };
    let fed: Vec<_> = (0..5).map(|place| tap.arrive(3, place, &packet)).collect();
    assert_eq!(fed, [Fed::Stored, Fed::Stored, Fed::Rotated, Fed::Stored, Fed::Dropped]);
    assert_eq!(tap.arrive(3, 5, &Packet { data: &UDP[..20], ..packet }), Fed::Passed);
    assert_eq!((tap.received(), tap.matched(), tap.dropped()), (6, 5, 1));
    let mut tap = std::thread::spawn(move || tap).join().unwrap();
    let read: Vec<_> = tap.read().map(|message| (message.capture, message.place, message.packet)).collect();
    assert_eq!(read, [(3, 0, packet), (3, 1, packet)]);
    assert_eq!((tap.read().count(), tap.flush(), tap.flush(), tap.read().count()), (0, true, false, 2));
    tap.close();
    assert_eq!((tap.arrive(3, 6, &packet), tap.read().count(), tap.received()), (Fed::Closed, 0, 6));
}

#[test]
fn a_listener_is_refused_by_name() {
    let open = |snap, capacity| Listener::open(Filter::new("ip").unwrap(), snap, capacity, Mode::Immediate).map(|_| ()).map_err(|error| error.to_string());
    assert_eq!(open(38, 72), Ok(()));
    assert_eq!(open(0, 72), Err("BadSnap".to_owned()));
    for capacity in [0, 71, bpftap::MAX_CAPACITY + 1, usize::MAX] {
        assert_eq!(open(38, capacity), Err("BadCapacity".to_owned()));
    }
}

#[test]
fn expressions_are_compared() {
    assert_eq!(compare("port 80", "src port 80 or dst port 80", 2_000_000).unwrap(), Sameness::Same);
    let packet = match compare("tcp", "udp", 2_000_000) {
        Ok(Sameness::Differ(packet)) => packet,
        other => panic!("they differ: {other:?}"),
    };
    let accepted = ["tcp", "udp"].map(|text| Filter::new(text).unwrap().matches(&packet.data, packet.wire));
    assert!(accepted[0] != accepted[1]);
    assert_eq!(compare("tcp", "udp", 1).unwrap(), Sameness::NotDecided(Cause::Budget));
    for (first, second, number) in [("tcp", "port http", 2), ("port http", "port http", 1)] {
        let error = compare(first, second, 1).unwrap_err();
        assert_eq!((error.to_string(), error.number), ("BadWord 5".to_owned(), Some(number)));
    }
}

#[test]
fn programs_and_listings() {
    const LISTING: &str = "4\n40 0 0 12\n21 0 1 2048\n6 0 0 96\n6 0 0 0\n";
    let listed = Filter::from_listing(LISTING).unwrap();
    assert_eq!((listed.listing().unwrap().as_str(), listed.expression(), listed.run(&UDP, 38)), (LISTING, None, 96));
    assert_eq!(Filter::from_insns(listed.program()).unwrap().run(&UDP, 38), 96);
    assert_eq!([listed.why(&UDP, 38), listed.canonical()].map(|refused| refused.unwrap_err().fault), [Fault::NotText; 2]);
    assert_eq!(check(&listed.program()[..2]).unwrap_err().to_string(), "JumpOut 1");
    assert_eq!(Filter::from_insns(&[]).unwrap_err().fault, Fault::Empty);
    assert_eq!(Filter::from_listing("3\n6 0 0 0\n").unwrap_err().fault, Fault::Count);
    assert_eq!(Filter::from_insns(&[Insn { code: 7, ..Insn::default() }; 513]).unwrap_err().fault, Fault::TooMany);
}

#[test]
fn batches_answer_as_runs_do() {
    let dns = Filter::with_snap("udp port 5353", 77).unwrap();
    let packets: Vec<_> = Packets::new(VETH).unwrap().collect::<Result<_, _>>().unwrap();
    let answers: Vec<_> = packets.iter().map(|packet| dns.run(packet.data, packet.wire)).collect();
    assert_eq!(dns.run_each(&packets), answers);
    assert_eq!(dns.run_spans(VETH, &Packets::new(VETH).unwrap().spans().unwrap()), answers);
    assert_eq!((dns.run_each(&[]), dns.run_spans(&[], &[])), (vec![], vec![]));
    assert_eq!(Filter::new("").unwrap().run_spans(&[], &[Span { offset: 9, captured: 9, wire: 9 }]), [bpftap::MAX_SNAP]);
    assert_eq!(Packets::new(&VETH[..200]).unwrap().spans().unwrap_err().to_string(), "TornRecord 2");
}

#[test]
fn runs_are_traced() {
    let listed = Filter::from_listing("4\n40 0 0 12\n21 0 1 2048\n6 0 0 96\n6 0 0 0\n").unwrap();
    let places = |packet: &[u8]| listed.trace(packet, 38).unwrap().iter().map(|one| one.place).collect::<Vec<_>>();
    assert_eq!((places(&UDP), places(&[])), (vec![0, 1, 2], vec![0]));
    let stores = Filter::from_listing("3\n0 0 0 7\n2 0 0 3\n22 0 0 0\n").unwrap().trace(&UDP, 38).unwrap();
    assert_eq!(stores[1], Executed { place: 1, accumulator: 7, index: 0, stored: Some((3, 7)) });
    let many = vec!["ether[30] = 10"; 80].join(" and ");
    assert_eq!(Filter::new(&many).unwrap().looks(&UDP, 38).unwrap(), [Look { offset: 30, size: 1 }; 80]);
    assert_eq!(listed.looks(&UDP, 38).unwrap_err().fault, Fault::NotText);
}

#[test]
fn a_clone_has_memory_of_its_own() {
    let udp = Filter::with_snap("udp", 20).unwrap();
    let other = udp.clone();
    drop(udp);
    assert_eq!((other.run(&UDP, 38), other.expression(), format!("{other:?}").as_str()), (20, Some("udp"), "Filter(\"udp\")"));
}

#[test]
fn threads_share_what_is_sync() {
    fn shared<T: Send + Sync>(value: T) -> T {
        value
    }
    let (dns, tap) = (shared(Filter::new("udp port 5353").unwrap()), shared(Listener::open(Filter::new("").unwrap(), 96, 4096, Mode::Buffered).unwrap()));
    shared(Packets::new(VETH).unwrap());
    let count = || Packets::new(VETH).unwrap().filter(|packet| packet.as_ref().map_or(false, |packet| dns.matches(packet.data, packet.wire))).count();
    std::thread::scope(|scope| {
        let counts: Vec<_> = (0..4).map(|_| scope.spawn(|| (count(), tap.received()))).collect();
        assert!(counts.into_iter().all(|counted| counted.join().unwrap() == (67, 0)));
    });
}

#[test]
fn long_expressions_have_stack_enough() {
    let text = format!("{}ip{}{}{}", "(".repeat(60), ")".repeat(60), " or ip".repeat(90), " ".repeat(4000));
    let called = std::thread::Builder::new().stack_size(64 << 10).spawn(move || {
        let filter = Filter::new(&text).unwrap();
        (filter.canonical().unwrap().len() > 90, filter.why(&UDP, 38).unwrap().len(), compare("tcp", "udp", 1).is_ok(), steps("96 4096 ip\n", "", &[]).is_ok())
    });
    let (canonical, why, compared, played) = called.unwrap().join().unwrap();
    assert!(canonical && why > 4 && compared && played);
    let long = "ip or ".repeat(1300) + " proot";
    let hinted = std::thread::Builder::new().stack_size(64 << 10).spawn(move || Filter::new(&long).unwrap_err().hint(&long));
    assert_eq!(hinted.unwrap().join().unwrap().as_deref(), Some("did you mean `proto`?"));
}

#[test]
fn what_is_written_is_read() {
    for content in [VETH, include_bytes!("../../../examples/veth-big-nano.pcap"), include_bytes!("../../../examples/veth-big-micro.pcap")] {
        let packets = Packets::new(content).unwrap();
        let mut writer = Writer::new(Vec::new(), packets.form()).unwrap();
        packets.for_each(|packet| writer.write(&packet.unwrap()).unwrap());
        assert!(writer.into_inner() == content);
    }
}

#[test]
fn what_cannot_be_written() {
    let mut writer = Writer::new(Vec::new(), Form::default()).unwrap();
    let packet = Packet { data: &UDP, wire: 38, seconds: 1, nanos: 0 };
    writer.write(&packet).unwrap();
    let error = |refused: io::Error| *refused.get_ref().and_then(|error| error.downcast_ref::<Error>()).expect("it is ours");
    assert_eq!(error(writer.write(&Packet { nanos: 1_000_000_000, ..packet }).unwrap_err()).to_string(), "BadFraction 1");
    let long = vec![0; bpftap::MAX_SNAP as usize + 1];
    assert_eq!(error(writer.write(&Packet { data: &long, ..packet }).unwrap_err()).fault, Fault::RecordTooLong);
    writer.write(&packet).unwrap();
    assert_eq!(writer.into_inner().len(), 24 + 2 * (16 + 38));
    // A file that takes 24 bytes.
    let mut room = [0; 24];
    let mut writer = Writer::new(&mut room[..], Form::default()).unwrap();
    assert_eq!(writer.write(&packet).unwrap_err().kind(), io::ErrorKind::WriteZero);
    assert_eq!(Writer::new(&mut room[..23], Form::default()).unwrap_err().kind(), io::ErrorKind::WriteZero);
}

#[test]
fn captures_are_cut() {
    let dns = Filter::new("udp port 5353").unwrap();
    let written = cut(VETH, &dns, 60).unwrap();
    let kept: Vec<_> = Packets::new(&written).unwrap().collect::<Result<_, _>>().unwrap();
    assert!(kept.len() == 67 && kept.iter().all(|packet| packet.data.len() <= 60 && dns.matches(packet.data, packet.wire)));
    let CutError { error, written } = cut(&VETH[..200], &Filter::new("").unwrap(), 20).unwrap_err();
    assert_eq!((error.to_string(), written.len()), ("TornRecord 2".to_owned(), 24 + 2 * 36));
    assert_eq!(cut(&[], &dns, 0).unwrap_err(), CutError { error: Packets::new(&[]).unwrap_err(), written: vec![] });
}

#[test]
fn steps_are_played() {
    let (listeners, script) = ("96 4096 udp port 5353\n96 4096\n", "arrive\n".repeat(300) + "flush 0\nread 0\n");
    let replay = steps(listeners, &script, &[VETH]).unwrap();
    assert!(replay.fault.is_none() && replay.reports.starts_with("listener 0 received 253 matched 67 dropped "));
    assert_eq!(steps_json(listeners, &script, &[VETH]).unwrap().reports.lines().count(), replay.reports.lines().count());
    let torn = steps(listeners, &script, &[VETH, &VETH[..200]]).unwrap();
    let fault = torn.fault.unwrap();
    assert_eq!((fault.to_string().as_str(), fault.number), ("TornRecord 2", Some(1)));
    let refused = |listeners, script| steps(listeners, script, &[]).map_err(|error| (error.to_string(), error.number));
    assert_eq!(refused("96 4096\n96 4096 port http\n", ""), Err(("BadWord 5".to_owned(), Some(1))));
    assert_eq!(refused("96\n", ""), Err(("Listeners 1".to_owned(), None)));
    assert_eq!(refused("", "arrive\nx\n"), Err(("Script 2".to_owned(), None)));
}
