// A bridge with 64 filters and the frames that reach it, as records.
use second::text;

// The filters 0 to 63, each with a handle of its own; that of filter `place` is 7. All of one gate, with a list of eight entries where `list`,
// with a meter and a scheduler where `all`.
pub fn setup(place: usize, list: bool, all: bool) -> Vec<u8> {
    let mut lines = String::from("port port=0 overhead=20\ngate id=0 state=1 ipv=null invalid-receive-block=0 octets-block=0 base-time=0\n");
    if list {
        for entry in 0..8 {
            lines.push_str(&format!("gate-entry gate=0 state=1 ipv={entry} interval=1000 octet-maximum=100000\n"));
        }
    }
    lines.push_str("meter id=0 cir=10000000000 cbs=1000000 eir=0 ebs=0 coupling=0 colour-aware=0 drop-on-yellow=0 red-block=0\n");
    lines.push_str("group id=0 residence=1000000\nscheduler id=0 group=0 cir=10000000000 cbs=1000000\n");
    for id in 0..64 {
        let handle = if id == place { 7 } else { 1000 + id };
        let named = if all { "meter=0 scheduler=0" } else { "meter=none scheduler=none" };
        lines.push_str(&format!("filter id={id} handle={handle} priority=any gate=0 max-sdu=1500 oversize-block=1 {named}\n"));
    }
    lines.push_str("start classes=8\n");
    text::assemble(&lines).expect("setup")
}

// Frames of 64 to 1063 octets, one every `spell` ns.
pub fn arrivals(handle: u32, spell: u64, count: u64) -> Vec<u8> {
    let lines: String = (0..count)
        .map(|k| format!("arrival port=0 time={} handle={handle} priority=3 drop-eligible=0 msdu={}\n", k * spell, 64 + k % 1000))
        .collect();
    text::assemble(&lines).expect("arrivals")
}
