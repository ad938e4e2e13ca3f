//! Wrong pictures and pages, and code that has gone on without them: each must be told.

use pictures::tree::Tree;
use pictures::{definitions, groups, page, phases, store, Faults};

const PHASES: &str = "docs/pictures/phases.svg";
const STORE: &str = "docs/pictures/store.svg";
const GROUPS: &str = "docs/pictures/groups.svg";
const PAGE: &str = "docs/ARCHITECTURE.md";

/// With this replaced in a file, a check tells of this.
#[track_caller]
fn told(
    check: fn(&Tree) -> Result<Faults, String>,
    path: &str,
    [old, new]: [&str; 2],
    fault: &str,
) {
    let tree = Tree::here().with(path, old, new);
    let faults = check(&tree).unwrap_or_else(|fault| vec![fault]);
    assert!(
        faults.iter().any(|found| found.contains(fault)),
        "{faults:?}"
    );
}

#[test]
fn phases_that_are_wrong() {
    let name = [
        "\"name\" x=\"1100\" y=\"307\">GoOffered",
        "\"name\" x=\"1100\" y=\"307\">GoAwaited",
    ];
    told(phases, PHASES, name, "\"GoOffered\" is missing");
    // the picture as it was before hand
    let arrow = [
        "<tspan class=\"call\">hand</tspan>, idle: the queued store",
        "the queued store",
    ];
    told(
        phases,
        PHASES,
        arrow,
        "an arrow from Collecting with 0 calls",
    );
    // a way that ends nowhere
    told(
        phases,
        PHASES,
        ["M745 540 V659", "M745 540 V640"],
        "ends at 0 boxes",
    );
    let call = [
        "<tspan class=\"call\">data</tspan>: image",
        "<tspan class=\"call\">write</tspan>: image",
    ];
    told(phases, PHASES, call, "\"write\" is not so");
    let stays = ["<tspan class=\"call\">report</tspan> and <tspan", "<tspan"];
    told(
        phases,
        PHASES,
        stays,
        "in every phase: \"report\" is missing",
    );
    // a call where it is refused
    let refused = [
        "<tspan class=\"call\">result</tspan> of a read",
        "<tspan class=\"call\">byte</tspan> of a read",
    ];
    told(
        phases,
        PHASES,
        refused,
        "(\"ResultAwaited\", \"byte\") is not so",
    );
    told(
        phases,
        PHASES,
        [" 1 3 6 11 15,", " 1 3 6 11,"],
        "refusals: (\"data\", {1, 3, 6, 11}) is not so",
    );
    told(
        phases,
        PHASES,
        [" 1 16 17.", " 1 16."],
        "(\"queue\", {1, 16, 17}) is missing",
    );
}

#[test]
fn phases_that_the_code_leaves_behind() {
    let state = "crates/link/src/state.rt";
    let phase = [
        "    EndOffered(bool),\n",
        "    EndOffered(bool),\n    CountAwaited(Store),\n",
    ];
    told(phases, state, phase, "\"CountAwaited\" is missing");
    let calls = "crates/controller/src/link_calls.rt";
    let call = [
        "    pub fn reset(mut self)",
        "    pub fn stop(self) -> Reply<Controller>\n        ensures { told result ≡ stop_call self }\n    \
         {\n    }\n\n    pub fn reset(mut self)",
    ];
    told(phases, calls, call, "calls: \"stop\" is missing");
    let machine = "crates/controller/specs/Machine.antt";
    let carried = [
        "broken_in c b (DataAwaited store) = refused link_not_awaited c",
        "broken_in c b (DataAwaited store) = carried (idle b Nothing)",
    ];
    told(
        phases,
        machine,
        carried,
        "(\"DataAwaited\", \"broken\") is missing",
    );
    let reasons = "crates/controller/specs/Reasons.antt";
    let refusal = [
        "    ∷ (10, any_mark_unknown",
        "    ∷ (21, true)\n    ∷ (10, any_mark_unknown",
    ];
    told(
        phases,
        reasons,
        refusal,
        "(\"result\", {1, 3, 6, 7, 8, 9, 10, 21}) is missing",
    );
    told(
        store,
        reasons,
        refusal,
        "result refused with {1, 3, 6, 7, 8, 9, 10}",
    );
    let dispatcher = "crates/dispatcher/specs/Reasons.antt";
    let full = ["    ∷ (17, leb 8", "    ∷ (18, leb 8"];
    told(
        phases,
        dispatcher,
        full,
        "(\"queue\", {1, 16, 18}) is missing",
    );
}

#[test]
fn lives_that_are_wrong() {
    told(
        store,
        STORE,
        ["(refused: 1, 3, 6, 11, 15)", "(refused: 1, 3, 6, 11)"],
        "data refused with {1, 3, 6, 11}",
    );
    told(
        store,
        STORE,
        ["(refused: 1, 3, 6, 11, 15)", ""],
        "no refusals of data",
    );
    told(
        store,
        STORE,
        ["track, enable, guard", "track, enable"],
        "no arrow from course says Guard",
    );
    told(
        store,
        STORE,
        ["report, guard and gap,", "report and gap,"],
        "does not look at the guard",
    );
    let hand = [
        "<tspan class=\"call\">hand</tspan>, at its turn",
        "<tspan class=\"call\">taken</tspan>, at its turn",
    ];
    told(
        store,
        STORE,
        hand,
        "(\"Collecting\", \"hand\", \"GoOffered\") is missing",
    );
    told(
        store,
        STORE,
        ["M590 962 V999", "M590 962 V1000 H420 V1113"],
        "(\"ResultAwaited\", \"result\", \"EndOffered\") is missing",
    );
    let decode = "crates/operations/src/decode.rt";
    told(
        store,
        decode,
        ["    Guard(bool),\n", "    Guard(bool),\n    Eject,\n"],
        "course says Eject",
    );
    let test = "crates/operations/specs/Test.antt";
    let worn = [
        "may_move Still report guard gap = true",
        "may_move Still report guard gap wear = true",
    ];
    told(store, test, worn, "does not look at the wear");
}

#[test]
fn groups_that_are_wrong() {
    told(
        groups,
        GROUPS,
        ["queues dispatcher", "dispatcher"],
        "\"queues\" is missing",
    );
    told(
        groups,
        GROUPS,
        ["layout firmware", "layout firmware queues"],
        "queues stands twice",
    );
    told(
        groups,
        GROUPS,
        ["M600 480 V519", "M600 520 V481"],
        "machine parts does not stand on controller",
    );
    told(
        groups,
        GROUPS,
        ["M305 480 V555 H429", "M305 480 V739"],
        "no way from view to machine parts",
    );
    told(
        groups,
        GROUPS,
        ["M850 665 H771", "M850 665 H800 V555 H771"],
        "include/ctc_records.h does not stand on machine parts",
    );
    told(
        groups,
        GROUPS,
        ["M950 58 H989", "M990 58 H951"],
        "words does not stand on rack",
    );
    told(
        groups,
        GROUPS,
        ["include/ctc_contest.h", "include/ctc_game.h"],
        "include/ctc_game.h",
    );
    let crates = "crates.txt";
    told(
        groups,
        crates,
        ["views: common status", "views: common contest status"],
        "no way from view to contest",
    );
    told(
        groups,
        crates,
        ["table_main: ", "fleet: common\ntable_main: "],
        "\"fleet\" is missing",
    );
}

#[test]
fn definitions_that_are_wrong() {
    told(
        definitions,
        STORE,
        ["test_of, may_move", "test_of, may_turn"],
        "may_turn is no definition",
    );
    let moved = [
        "in controller/specs/Machine.antt",
        "in link/specs/Machine.antt",
    ];
    told(
        definitions,
        PHASES,
        moved,
        "byte_in is not in link/specs/Machine.antt",
    );
    let renamed = ["pub send_interrupt :", "pub interrupt_sent :"];
    told(
        definitions,
        "crates/link/specs/Completion.antt",
        renamed,
        "send_interrupt is no definition",
    );
}

#[test]
fn pages_that_are_wrong() {
    let row = "| view | `views` | the moving view over a run of result records | `link`, `controller` |\n";
    told(page::crates, PAGE, [row, ""], "\"views\" is missing");
    told(
        page::crates,
        PAGE,
        [row, &row.repeat(2)],
        "views stands twice",
    );
    told(
        page::crates,
        PAGE,
        [row, &row.replace("| view", "| lines")],
        "views is in Some(\"view\"), not lines",
    );
    told(
        page::crates,
        PAGE,
        [row, &row.replace("`link`", "`status`")],
        "views knows nothing of status",
    );
    told(
        page::crates,
        PAGE,
        [row, &row.replace("`link`", "`net`")],
        "views knows nothing of net",
    );

    told(
        page::ways,
        PAGE,
        ["| 9 10 13 14 11 |", "| 9 10 11 13 14 |"],
        "merge refuses with 9 10 11 13 14",
    );
    let view = ["((18, width < 1)", "((20, width < 1)"];
    told(
        page::ways,
        "crates/views/specs/Refused.antt",
        view,
        "view refuses with 18 19 11, not 20 18",
    );

    told(
        page::names,
        PAGE,
        ["`hand`: `hand_call`", "`hand`: `hands_call`"],
        "hands_call is no example",
    );

    let more = [
        "pub extern \"C\" fn ctc_hand(",
        "pub extern \"C\" fn ctc_stop(\npub extern \"C\" fn ctc_hand(",
    ];
    let functions = "crates/firmware/src/interface.rt";
    told(page::counts, functions, more, "twelve functions");
    let bytes = ["the state as 224 bytes", "the state as 220 bytes"];
    told(page::counts, GROUPS, bytes, "the state as 224 bytes");

    let places = page::places;
    told(
        places,
        PAGE,
        ["`stores.carry_out`", "`stores.carry_on`"],
        "carry_on is not in crates/controller/src/stores.rt",
    );
    told(
        places,
        PAGE,
        ["`Stores.carry_out`", "`Machine.carry_out`"],
        "carry_out is not in",
    );
    told(
        places,
        PAGE,
        [
            "`functions_are_the_dispatchers_calls`",
            "`functions_are_calls`",
        ],
        "firmware/proofs/Demands.antt",
    );
    told(
        places,
        PAGE,
        ["`link/PhaseLaws`", "`link/PhasesLaws`"],
        "no file crates/link/proofs/PhasesLaws.antt",
    );
    told(
        places,
        PAGE,
        ["`tests/words`", "`tests/word`"],
        "no tests/word",
    );
    let theorem = ["pub each_store_orders_once :", "pub stores_order_once :"];
    told(
        places,
        "crates/controller/proofs/Demands.antt",
        theorem,
        "each_store_orders_once is not in",
    );

    told(
        page::paths,
        PAGE,
        ["`GoesAlike.antt`", "`GoAlike.antt`"],
        "no GoAlike.antt",
    );
    told(
        page::paths,
        PAGE,
        [
            "`crates/records/src/interface.rt`",
            "`crates/records/src/c.rt`",
        ],
        "no file crates/records/src/c.rt",
    );
    told(
        page::paths,
        PAGE,
        ["`control_of` in", "`controls_of` in"],
        "controls_of is not in crates/operations/src/decode.rt",
    );
    told(
        page::paths,
        PAGE,
        ["#8-named-forms", "#8-forms"],
        "no heading #8-forms in docs/DECISIONS.md",
    );
    told(
        page::paths,
        PAGE,
        ["(pictures/store.svg)", "(pictures/stores.svg)"],
        "no docs/pictures/stores.svg",
    );
    told(
        page::paths,
        PAGE,
        [
            "# Architecture\n",
            &format!("# Architecture\n{}\n", "x".repeat(121)),
        ],
        "line 2 is too long",
    );
    told(
        page::links,
        PAGE,
        ["## Rattle\n", "## The language\n"],
        "no heading #rattle",
    );
}
