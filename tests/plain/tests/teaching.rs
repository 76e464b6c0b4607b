//! Document 01's example, the teaching book K1 to K12, and Fig. 1.

use plain::session::session;

const K: &str = "spec probe provides temp; std one end
spec valve provides cool; std v2 requires temp end
spec loop provides hold; std p requires temp, cool end
spec tank provides hold; std a end
sys tank use loop, probe, valve; a = loop, probe, valve end
";

fn listing(text: &str) -> String {
    let listing = session(text.as_bytes(), usize::MAX).listing;
    String::from_utf8(listing.unwrap_or_default()).unwrap_or_default()
}

/// The rows after those of K; commands count from 6.
fn after_k(text: &str) -> String {
    let rows = listing(&format!("{K}{text}"));
    let accepted = "1,0\n2,0\n3,0\n4,0\n5,0\n";
    rows.strip_prefix(accepted).unwrap_or("K is refused").to_string()
}

#[test]
fn example() {
    let expected = "1,0
2,0
3,0
4,0
5,0
6,0
6,probe,one
6,valve,v2
6,loop,p
6,tank,a
7,0
spec loop provides hold; std p requires cool, temp end
spec probe provides temp; std one end
spec tank provides hold; std a end
spec valve provides cool; std v2 requires temp end
sys tank use loop, probe, valve; a = loop.p, probe.one, valve.v2 end
";
    assert_eq!(listing(&format!("{K}parts tank.a\nout\n")), expected);
}

#[test]
fn k1_needs() {
    assert_eq!(after_k("needs tank.a"), "6,0\n6,temp\n6,cool\n");
}

#[test]
fn k2_undefined() {
    assert_eq!(after_k("undefined"), "6,0\n6,probe\n6,valve\n6,loop\n");
}

#[test]
fn k3_whereused() {
    assert_eq!(after_k("whereused probe"), "6,0\n6,tank\n");
}

#[test]
fn k4_delspec() {
    assert_eq!(after_k("delspec probe"), "6,18\n");
}

#[test]
fn k5_delmodvar() {
    assert_eq!(after_k("delmodvar valve.v2"), "6,6\n");
}

#[test]
fn k6_sysvar() {
    assert_eq!(after_k("sysvar tank.b = loop end"), "6,21\n");
}

#[test]
fn k7_open_needs() {
    let text = "spec shell provides hold; std s end
        sys shell use loop; s = loop end needs shell.s";
    assert_eq!(after_k(text), "6,0\n7,0\n8,0\n8,temp\n8,cool\n");
}

#[test]
fn k8_not_provided() {
    let text = "spec shell provides hold; std s end sys shell use probe; s = probe end";
    assert_eq!(after_k(text), "6,0\n7,19\n");
}

#[test]
fn k9_uses_itself() {
    let text = "spec shell provides hold; std s end sys shell use shell; s = shell end";
    assert_eq!(after_k(text), "6,0\n7,20\n");
}

const ROOM: &str = "spec room provides hold; std q end
sys room use tank, probe; q = tank, probe end
";

#[test]
fn k10_room() {
    let expected = "6,0\n7,0\n8,0\n8,probe,one\n8,valve,v2\n8,loop,p\n8,tank,a\n8,room,q\n";
    assert_eq!(after_k(&format!("{ROOM}parts room.q")), expected);
    let outcome = session(format!("{K}{ROOM}").as_bytes(), usize::MAX);
    // room is component 4, q version 4: probe one, valve v2, loop p, tank a, room q.
    let parts = outcome.book.parts(4, 4, 5).map(|parts| (parts.rows.len(), parts.depth));
    assert_eq!(parts, Ok((5, 3)));
    assert_eq!(outcome.book.parts(4, 4, 4), Err(22));
}

/// WHEREUSED goes on upwards, and "follows usable lists, not compositions".
#[test]
fn whereused_goes_upwards() {
    let text = "whereused loop whereused tank whereused room
        spec tub provides hold; std a end sys tub use loop, room; a = loop end
        whereused valve whereused room delsys tub whereused room";
    let expected = "8,0\n8,tank\n8,room\n9,0\n9,room\n10,0\n11,0\n12,0\n\
        13,0\n13,tank\n13,room\n13,tub\n14,0\n14,tub\n15,0\n16,0\n";
    assert_eq!(after_k(&format!("{ROOM}{text}")), format!("6,0\n7,0\n{expected}"));
}

/// UNUSED gives modules only, and UNDEFINED neither modules nor systems.
#[test]
fn unused_and_undefined() {
    let text = "spec pump provides flow; std x end unused
        mod pump; x impl \"i\" end mod probe; one impl \"i\" end
        unused undefined delsys tank unused undefined";
    let expected = "6,0\n7,0\n8,0\n9,0\n10,0\n10,pump\n11,0\n11,valve\n11,loop\n\
        12,0\n13,0\n13,probe\n13,pump\n14,0\n14,valve\n14,loop\n14,tank\n";
    assert_eq!(after_k(text), expected);
}

/// CHOICE gives the pairs that provide at least the facilities.
#[test]
fn choice_of_several() {
    let text = "spec both provides cool, hold, flow; std x; a end
        choice cool, hold end choice hold end choice temp, hold end";
    let expected = "6,0\n7,0\n7,both,a\n7,both,x\n8,0\n8,loop,p\n8,tank,a\n\
        8,both,a\n8,both,x\n9,0\n";
    assert_eq!(after_k(text), expected);
}

#[test]
fn k11_delsys() {
    assert_eq!(after_k(&format!("{ROOM}delsys tank")), "6,0\n7,0\n8,21\n");
}

#[test]
fn k12_own_facility() {
    assert_eq!(after_k("spec x provides temp; std v requires temp end"), "6,13\n");
}

/// "testing only the new system in ADD-SYS, though a system above may use it already"
#[test]
fn system_above() {
    let text = "spec low provides flow; std l end
        spec top provides flow, cool; std t end
        sys top use low, valve, probe; t = low, valve, probe end
        spec pump provides flow; std x requires heat end
        sys low use pump; l = pump end
        delsys low
        spec heater provides heat; std h end
        spec top2 provides flow; std t end
        sys top2 use low, heater; t = low end
        sys low use pump; l = pump end
        delsys top2
        sys low use pump; l = pump end";
    let expected = "6,0\n7,0\n8,0\n9,0\n10,0\n11,0\n12,0\n13,0\n14,0\n15,21\n16,0\n17,0\n";
    assert_eq!(after_k(text), expected);
}

/// "testing B4 on compositions"
#[test]
fn circle_of_usable_lists() {
    let text = "spec up provides hold; std u end
        sys up use tank, loop; u = loop end
        delsys up
        delsys tank
        sys up use tank, loop; u = loop end
        sys tank use up, loop; a = loop end
        sys tank use up; a = up end";
    assert_eq!(after_k(text), "6,0\n7,0\n8,0\n9,0\n10,0\n11,20\n12,20\n");
}

const FIGURE_1: &str = r#"spec DiscScheduler provides schedule, service;
    FCFS;
    std SSTF
end {spec DiscScheduler}

spec ds provides schedule, service;
    FCFS requires rcb, dequeue, queue, enqueue;
    std SSTF requires rcb, list, remove, inspect, insert
end {spec ds}

spec rcbqueue provides dequeue, queue, enqueue;
    std staticq requires rcb;
    dynamicq requires rcb
end {spec rcbqueue}

spec rcblist provides list, remove, inspect, insert, position;
    std slist requires rcb
end {spec rcblist}

{ MODULES }

mod ds;
    FCFS impl "/usr/ian/svcd/fcfs.ada.make";
    SSTF impl "/usr/ian/svcd/sstf.ada.make"
end {mod ds}

mod rcbqueue;
    staticq impl "/usr/ian/svcd/sq.ada.make";
    dynamicq impl "/usr/ian/svcd/dq.ada.make"
end {mod rcbqueue}

mod rcblist;
    slist impl "/usr/ian/svcd/sl.ada.make"
end {mod rcblist}

{ SYSTEMS }

sys DiscScheduler
    use ds, rcbqueue, rcblist;
    FCFS = ds.FCFS, rcbqueue;
    SSTF = ds, rcblist
end {sys DiscScheduler}
needs DiscScheduler.SSTF
parts DiscScheduler.FCFS
choice schedule end
unused
whereused rcblist
out
"#;

const FIGURE_1_LISTING: &str = r#"1,0
2,0
3,0
4,0
5,0
6,0
7,0
8,0
9,0
9,rcb
9,list
9,remove
9,inspect
9,insert
10,0
10,ds,FCFS
10,rcbqueue,staticq
10,DiscScheduler,FCFS
11,0
11,DiscScheduler,FCFS
11,DiscScheduler,SSTF
11,ds,FCFS
11,ds,SSTF
12,0
13,0
13,DiscScheduler
14,0
spec DiscScheduler provides schedule, service; FCFS; std SSTF end
spec ds provides schedule, service; FCFS requires dequeue, enqueue, queue, rcb; std SSTF requires insert, inspect, list, rcb, remove end
spec rcblist provides insert, inspect, list, position, remove; std slist requires rcb end
spec rcbqueue provides dequeue, enqueue, queue; dynamicq requires rcb; std staticq requires rcb end
mod ds; FCFS impl "/usr/ian/svcd/fcfs.ada.make"; SSTF impl "/usr/ian/svcd/sstf.ada.make" end
mod rcblist; slist impl "/usr/ian/svcd/sl.ada.make" end
mod rcbqueue; dynamicq impl "/usr/ian/svcd/dq.ada.make"; staticq impl "/usr/ian/svcd/sq.ada.make" end
sys DiscScheduler use ds, rcblist, rcbqueue; FCFS = ds.FCFS, rcbqueue.staticq; SSTF = ds.SSTF, rcblist.slist end
"#;

#[test]
fn figure_1() {
    assert_eq!(listing(FIGURE_1), FIGURE_1_LISTING);
}
