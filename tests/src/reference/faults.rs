// Planted faults: wrong readings of document 01 and of later requests that can be switched on in the independent implementation, to see that the trial
// finds them.
use std::sync::atomic::{AtomicUsize, Ordering};

static PLANTED: AtomicUsize = AtomicUsize::new(usize::MAX);

/// Whether a fault is switched on.
pub fn planted(fault: Fault) -> bool {
    PLANTED.load(Ordering::Relaxed) == fault as usize
}

/// Switches one fault on, or all off.
pub fn plant(fault: Option<Fault>) {
    PLANTED.store(fault.map_or(usize::MAX, |f| f as usize), Ordering::Relaxed);
}

/// What a fault is of; those of tables, moves and nights stand first, then those of the list of open moves, those of Orc scripts, those of ticks, and those
/// of joint steps.
#[derive(Clone, Copy, PartialEq, Eq, Debug)]
pub enum Of {
    Moves,
    List,
    Scripts,
    Ticks,
    Joint,
}

pub fn of(fault: Fault) -> Of {
    match fault as usize {
        n if n >= Fault::NotCarried as usize => Of::Joint,
        n if n >= Fault::StopsAtZero as usize => Of::Ticks,
        n if n >= Fault::LongScript as usize => Of::Scripts,
        n if n >= Fault::LastFloatingLeftOut as usize => Of::List,
        _ => Of::Moves,
    }
}

macro_rules! faults {
    ($($name:ident: $words:literal,)*) => {
        #[derive(Clone, Copy, PartialEq, Eq, Debug)]
        pub enum Fault {
            $($name,)*
        }

        /// Every fault and what it gets wrong.
        pub const FAULTS: &[(Fault, &str)] = &[$((Fault::$name, $words),)*];
    };
}

faults! {
    // the misreadings of document 01
    HeldReceiveLeftOut: "a receive that is held back itself is left out of the conflict test",
    OpenOfTheirs: "the other receive's variables count only where they are still open for the invoke",
    OpenOfOurs: "the receive's variables count only where they are open for the other one too",
    ProtectionShelters: "a protection that holds the kill keeps all inside",
    KillNextDoor: "a kill next door holds a communication back",
    OnlyContinuation: "a variable is replaced in the continuation only",
    // tables
    LongTable: "a table over 32,768 bytes is read",
    TupleOfFive: "a tuple of five is read",
    SlotBehindTuple: "a slot behind the tuple may hold anything",
    LabelSent: "a label may be sent",
    ReceiveOnVariable: "a receive's endpoint may be a variable",
    VariableTwice: "a pattern may hold a variable twice",
    BehindTheTerm: "records behind the term are not looked at",
    ShapePlace: "records that run out: the place of the last one",
    Depth257: "depth 257 is allowed",
    RightChildFree: "the right child of a choice may be anything",
    OpenBeforeGuards: "6 before 5",
    SecondBeside: "a second delimitation beside the first is allowed",
    UseBefore: "a delimited value may be used before its delimitation",
    // live records and moves
    LiveUnderReplication: "records under a replication are live",
    ElapseUsesB: "time may come with a number b",
    FaultAtB: "both parties at fault: the place is b",
    // kills
    HaltsOutside: "parallels outside [k] are halted too",
    HaltEntersProtection: "halting goes into protections",
    HaltSparesReplication: "halting spares what is replicated",
    HaltSparesInvokes: "halting spares invokes",
    HaltEntersChoice: "halting keeps the record of a choice",
    HaltDropsDelimitation: "halting removes delimitations",
    // communications
    VariableSent: "a variable may be sent",
    DiffersAtReceive: "12's place is the receive",
    SentVariableUnseen: "a variable of the tuple is not seen where the endpoint differs",
    CountBeforeEndpoint: "another count is told before another endpoint",
    LastSlotTold: "the last slot that differs is told, not the first",
    PatternVariableDiffers: "a pattern's variable counts as a difference",
    ScopeOfReceive: "a variable's delimitation need not enclose the invoke",
    ValueEscapes: "a delimited value may leave its delimitation",
    EveryValueEncloses: "every value sent must enclose every variable",
    ConflictFirst: "15 before 14",
    ReceiversScopes: "only scopes around the receive hold back",
    NearestHeld: "the last [k] is the place, not the first",
    AnyLabelHolds: "a ready kill of any label holds a scope back (document 001)",
    LiveKillsOnly: "a kill under a replication holds nothing back",
    ConflictAmongLive: "only live receives conflict",
    EqualHinders: "a receive with as many variables hinders",
    InvokeStays: "the invoke stays",
    DelimitationStays: "the delimitation of a bound variable stays",
    ProtectedKeepVariables: "protected parts keep their variables",
    ReplicatedKeepVariables: "replicated parts keep their variables",
    InnerChoice: "only the inner choice goes",
    // time
    TimeoutHeld: "a ready kill holds a timeout back",
    TimeoutEarly: "a wait above 0 may time out",
    TimeZero: "a time of 0 is allowed",
    WaitHoldsTime: "a time above a live wait is refused",
    WaitGoesRound: "a wait goes below 0 and round",
    ShorterWaitKept: "a wait that holds less than the time keeps it",
    UpToShortest: "no wait falls by more than the shortest live one holds",
    ReplicatedWaitFalls: "a wait under a replication falls",
    // unfolding and extrusion
    CopyRight: "the copy stands right",
    CopyNotRenamed: "the copy is not renamed",
    OnlyDelimitedTaken: "a new atom may be one that is used and not delimited",
    NewAtomTwice: "a new atom may be one just chosen",
    RenamedBackwards: "atoms are renamed from the last record on",
    LabelExtruded: "a label may be extruded",
    SidesSwapped: "an extrusion over a parallel swaps its sides",
    // the lender of the output
    NoLimitOfRecords: "a successor may have over 2,048 records",
    NoLimitOfDepth: "a successor may be deeper than 256",
    RoomBeforeLimits: "21 before 20",
    RoomForOneMore: "the output must be a byte longer",
    ByteBehind: "the byte behind the successor is cleared",
    RefusalWrites: "a refusal writes a byte",
    // nights
    TailBeyondList: "a list of 60,005 bytes is played",
    RefusedCounted: "the tally counts refused moves",
    NoRecordsKept: "a refused move's reply has no records",
    CopiedWholeTable: "an unfolding counts the load of the whole table",
    NoZerosBehind: "no zeros behind the last table",
    // the list of open moves
    LastFloatingLeftOut: "the list leaves out the last extrusion",
    MeetingTwice: "the list has a communication twice",
    TooLargeListed: "the list has moves that would be 20",
    MeetingsByB: "the list has its communications by b, then a",
    PartOfList: "the moves that fit are written before 22 is said",
    HeldReceiveUnlisted: "a receive that is held back itself is left out of the list's conflict test",
    ByPlace: "the list has its moves by place, not by kind first",
    PlaceOfTheRest: "22's place is the number of moves that do not fit",
    RoomForMoreThanList: "the list's buffer must be a byte longer",
    ByteBehindList: "the byte behind the list is cleared",
    // Orc scripts
    LongScript: "a script of 513 records is read",
    RecordBeforeResult: "30 of a malformed record before that of the result endpoint",
    ResultToVariable: "the operation of the result endpoint may be a variable",
    LabelAsParameter: "a parameter may be a label",
    ShapeBeforeDepth: "31 of the shape before that of the depth",
    Depth65: "a script may be 65 deep",
    VariablesBeforeShape: "32 before 31",
    SequenceBindsLeft: "a sequence binds its variable in its left part",
    WhereBindsRight: "a where binds its variable in its right part",
    AgainInsideOnly: "a variable is bound a second time only where the first reaches",
    UnboundBeforeAgain: "32 of an unbound variable before that of one bound again",
    ParametersNotTaken: "a fresh atom may be a parameter",
    SitesNotTaken: "a fresh atom may be of a site's endpoint",
    ResultNotTaken: "a fresh atom may be of the result endpoint",
    OperationBeforePartner: "a fresh operation is taken before its partner",
    LabelBeforeLeft: "the label of a where is taken before the atoms of its left part",
    BoundRenamed: "bound variables are renamed",
    ResultBeforeParameter: "a call sends the result endpoint before the parameter",
    ResultsKept: "the right part of a sequence sends its results to the left part's endpoint",
    NotReplicated: "the receive of a sequence is not replicated",
    KillLeftOut: "the receive of a where kills nothing",
    LabelAroundBoth: "the label of a where is delimited around both parts",
    VariableOutermost: "the variable of a where is delimited outside its endpoint",
    LongTranslation: "a translation may have over 2,048 records",
    DeepTranslation: "a translation may be deeper than 256",
    RoomBeforeTooLarge: "21 of a translation before 20",
    ByteBehindTranslation: "the byte behind a translation is cleared",
    RefusedScriptWrites: "a refused script writes a byte",
    // ticks
    StopsAtZero: "a later reading below the earlier one is no tick",
    BackOneEarly: "2,147,483,647 ticks are a clock gone back",
    LongOneEarly: "65,535 ticks are too many",
    LongBeforeBack: "24 before 23",
    LongByRemainder: "of more than 65,535 ticks the lowest 16 bits pass",
    LongWrites: "24 writes the table to the output",
    TicksBeforeTable: "23 and 24 before the table's refusals",
    RoomBeforeTicks: "21 before 23 and 24",
    NoTickAsTime: "no tick is a time of 0",
    NotHandedOn: "no tick leaves the output as it was",
    ByteBehindTable: "the byte behind a table that is handed on is cleared",
    // joint steps
    NotCarried: "kills fire one after the other, each at the position that was listed",
    FirstAlone: "only the first listed kill fires",
    SecondNotHalted: "what is beside the second kill is not halted",
    SecondShelterHalted: "what is protected in the second kill's scope is halted",
    TwiceIsOnce: "a position listed twice counts once",
    SameScopeFires: "two kills of one [k] do not clash",
    OnlyInner: "of two scopes, one inside the other, only the inner clashes",
    OnlyOuter: "of two scopes, one inside the other, only the outer clashes",
    EarlierOnly: "a kill clashes only with those listed before it",
    ShelteredApart: "a scope under a protection does not clash with one around the protection",
    NearestLabel: "a kill's scope is the nearest delimitation of any label",
    ClashByPlace: "26 at the lowest place, not the first listed",
    AbsentByPlace: "11 at the lowest place, not the first listed",
    PlaceInList: "the places of 11 and 26 count the list",
    ReplicatedFires: "a replicated kill fires in a joint step",
    DormantFires: "a kill behind a receive or a wait fires in a joint step",
    NineFire: "nine kills fire",
    SevenTheMost: "eight kills are too many",
    EmptyHandedOn: "no kill hands the table on",
    NumberBeforeTable: "25 before the table's refusals",
    AbsentBeforeNumber: "11 before 25",
    ClashBeforeAbsent: "26 before 11",
    RoomBeforeClash: "21 before 26",
    RoomForTable: "the output of a joint step must hold the table before it",
    TallyOfOne: "the tally counts a joint step as one kill",
    TallyOfRefused: "the tally counts the kills of a refused joint step",
    ByteBehindJoint: "the byte behind what a joint step leaves is cleared",
    RefusedJointWrites: "a refused joint step writes a byte",
}
