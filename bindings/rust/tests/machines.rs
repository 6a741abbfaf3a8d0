//! The crate against the texts of this repository.
use pciplan::{check, faults, plan, settle, supported, text, version, Denied, Faults, Plan, Pools, Refusal, Settle, Slot, Write};
use std::{env, fs, path::PathBuf};

/// A file of the repository, which `PCIPLAN_SOURCE` names where this crate doesn't stand in it.
fn read(name: &str) -> Vec<u8> {
    let top = env::var_os("PCIPLAN_SOURCE").map_or_else(|| PathBuf::from("../.."), PathBuf::from);
    fs::read(top.join(name)).unwrap()
}

/// A text of crates/pciplan/data, and its probe.
fn data(name: &str) -> (Vec<u8>, Vec<u8>) {
    (read(&format!("crates/pciplan/data/{name}.txt")), read(&format!("crates/pciplan/data/{name}_probe.txt")))
}

/// Pools for the bare board, with this end of that for memory.
fn pools(mem_last: u64) -> Pools {
    Pools {
        io_first: 0x1000,
        io_last: 0xffff,
        mem_first: 0xe000_0000,
        mem_last,
        pref_first: 1 << 32,
        pref_last: (2 << 32) - 1,
    }
}

/// A configuration space with these bytes at these offsets.
fn space(parts: &[(usize, &[u8])]) -> [u8; 256] {
    let mut space = [0; 256];
    for (at, bytes) in parts {
        space[*at..*at + bytes.len()].copy_from_slice(bytes);
    }
    space
}

#[test]
fn verdicts() {
    for (name, roots) in [("old", &[0u8][..]), ("desk", &[0]), ("port", &[0]), ("roots", &[0, 0x40])] {
        let wanted = String::from_utf8(read(&format!("machines/{name}.check"))).unwrap();
        let got = match check(&read(&format!("machines/{name}.dump")), &read(&format!("machines/{name}.probe")), roots) {
            Ok(()) => "yes".into(),
            Err(Refusal::No(line)) => line,
            other => panic!("{name}: {other:?}"),
        };
        assert_eq!(got, wanted.trim_end(), "{name}");
    }
}

#[test]
fn lists() {
    let (dump, probe) = (read("machines/desk.dump"), read("machines/desk.probe"));
    let list = |roots: &[u8], asked: Faults| faults(&dump, &probe, roots, &asked);
    let alone = Faults { why: false, ..Faults::default() };
    let no = |text: &str| Err(Refusal::No(text.into()));
    assert_eq!(list(&[0], alone), no("52 VgaEnable 00:02.0\n52 VgaEnable 01:00.0"));
    assert_eq!(list(&[0], Faults { model: "vga", ..alone }), no("61 Clash bus 00 io 000013b0 00:02.0 3e 00:03.0 1c"));
    let (old, old_probe) = (read("machines/old.dump"), read("machines/old.probe"));
    assert_eq!(faults(&old, &old_probe, &[0], &Faults { model: "all", ..Faults::default() }), Ok(()));
    for (message, roots, asked) in [
        ("root", &[3u8, 3][..], Faults { model: "any", ..alone }),
        ("model", &[0], Faults { model: "power,", host_io: "-", ..alone }),
        ("host io", &[0], Faults { host_io: "2-1", host_mem: "-", ..alone }),
        ("host mem", &[0], Faults { host_mem: "01:1-2", ..alone }),
    ] {
        assert_eq!(list(roots, asked), Err(Refusal::Refused(message.into())));
    }
}

#[test]
fn long_list() {
    // each of 32 functions clashes with the first, so that the list is longer than the first room for it
    let image = space(&[(0, &[0x34, 0x12, 0x78, 0x56, 2]), (0x10, &[0, 0, 0, 0xe0])]);
    let mask = space(&[(0x10, &[0, 0xf0, 0xff, 0xff])]);
    let board = |it| text(&(0..32).map(|device| (Slot { bus: 0, device, function: 0 }, it)).collect());
    let Err(Refusal::No(list)) = faults(&board(image), &board(mask), &[0], &Faults::default()) else { panic!("no list") };
    assert!(list.len() > 4096);
    assert_eq!((list.lines().count(), list.matches("61 Clash").count()), (4 * 31, 31));
}

#[test]
fn plans() {
    let (dump, probe) = data("bare");
    let got = plan(&dump, &probe, &[0], &pools(0xe02f_ffff)).unwrap();
    assert_eq!(got.writes.len(), 7);
    assert_eq!(got.writes[0], Write { bus: 0, device: 1, function: 0, offset: 0x20, width: 4, value: 0xe010_e000 });
    let no = |mem_last| plan(&dump, &probe, &[0], &pools(mem_last)).unwrap_err();
    assert_eq!(no(0xe00f_ffff), Refusal::No("no 72 NoRoom mem".into()));
    assert_eq!(no(0), Refusal::No("no 70 BadPools".into()));
}

#[test]
fn settlings() {
    let (dump, probe) = data("plugged");
    let asked = Settle { mem: "e0000000-e02fffff", ..Settle::default() };
    let write = Write { bus: 2, device: 0, function: 0, offset: 0x10, width: 4, value: 0xe010_0000 };
    let writes = vec![write, Write { offset: 4, width: 2, value: 2, ..write }];
    assert_eq!(settle(&dump, &probe, &[0], &asked), Ok(Plan { writes: writes.clone(), safe_from: 0, denied: vec![] }));
    let spare = Settle { spare: "mem:100000", slots: "00:02.0", ..asked };
    let denied = vec![Denied { bus: 0, device: 2, function: 0, offset: 0x20 }];
    assert_eq!(settle(&dump, &probe, &[0], &spare), Ok(Plan { writes, safe_from: 0, denied }));
    let fixed = settle(&dump, &probe, &[0], &Settle { fixed: "02:00.0", ..asked });
    assert_eq!(fixed, Err(Refusal::No("no 74 Fixed 02:00.0 10".into())));
}

#[test]
fn settlings_off_told_ranges() {
    let (dump, probe) = data("plugged");
    let told = |also: &[u8]| {
        settle(&dump, &probe, &[0], &Settle { mem: "e0000000-e02fffff", also, ..Settle::default() })
    };
    let off = told(b"02:01.0 mem 00000000e0100000-00000000e0103fff held\n").unwrap();
    assert_eq!(off.writes[0], Write { bus: 2, device: 0, function: 0, offset: 0x10, width: 4, value: 0xe010_4000 });
    for (also, why) in [
        (&b"01:00.0 mem 00000000e0200000-00000000e0203fff always\n"[..], Refusal::No("no 75 Told 01:00.0 +1".into())),
        (b"03:00.0 mem 00000000e0200000-00000000e0203fff always\n", Refusal::No("no 34 NotListed 03:00.0".into())),
        (b"03:00.0 mem 00000000e0200000-00000000e0203fff held\n", Refusal::No("no 58 Orphan 03:00.0".into())),
        (b"01:00.0 mem 0\n", Refusal::Refused("also: 5 BadLine 1".into())),
    ] {
        assert_eq!(told(also), Err(why));
    }
    // all else is placed anew, and the window over a told range stays
    let also = b"02:00.0 mem 00000000e0100000-00000000e0103fff always vf0\n";
    let anew = Settle { mem: "e0000000-e02fffff", also, anew: true, ..Settle::default() };
    assert_eq!(settle(&dump, &probe, &[0], &anew).unwrap().writes, off.writes);
}

#[test]
fn texts_and_words_that_are_none() {
    let refused = |message: &str| Refusal::Refused(message.into());
    assert_eq!(check(b"00:00.0\nxx", b"", &[0]), Err(refused("dump: 5 BadLine 2")));
    assert_eq!(check(b"", b"", &[]), Err(refused("root")));
    assert_eq!(settle(b"", b"", &[3, 3], &Settle::default()), Err(refused("root")));
    assert_eq!(settle(b"", b"", &[0], &Settle { mem: "g", ..Settle::default() }), Err(refused("pool mem")));
    assert_eq!(settle(b"", b"", &[0], &Settle { spare: "mem:", ..Settle::default() }), Err(refused("spare")));
    assert_eq!(settle(b"", b"", &[0], &Settle { slots: "00:00.0", ..Settle::default() }), Err(refused("slots")));
}

#[test]
fn texts() {
    let image = space(&[(0, &[0x34, 0x12, 0x78, 0x56, 2]), (0x10, &[0, 0, 0, 0xe0])]);
    let mask = space(&[(0x10, &[0, 0xf0, 0xff, 0xff])]);
    let slots = [Slot { bus: 0, device: 1, function: 0 }, Slot { bus: 0, device: 2, function: 0 }];
    let of = |count: usize, space: [u8; 256]| text(&slots[..count].iter().map(|slot| (*slot, space)).collect());
    assert_eq!(check(&of(1, image), &of(1, mask), &[0]), Ok(()));
    let clash = "no 61 Clash bus 00 mem 00000000e0000000 00:01.0 10 00:02.0 10";
    assert_eq!(check(&of(2, image), &of(2, mask), &[0]), Err(Refusal::No(clash.into())));
}

#[test]
fn library() {
    assert!(supported());
    let numbers = env!("CARGO_PKG_VERSION").split('.').map(|number| number.parse::<u32>().unwrap());
    assert_eq!(version(), numbers.fold(0, |all, number| all << 8 | number));
}
