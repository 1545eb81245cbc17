//! The observer: what happened in a run, and what takes a trace out of the domain of comparison.

use crate::place::{usage, within_quota, Choice, How, JobSet, MigWay, View};
use crate::plan::{load, Plan};
use crate::step::{step_watched, BUFFER_WORDS};
use crate::trace::{Ask, Trace};

/// What takes a trace out of 01's domain of comparison.
#[derive(Clone, Copy, Debug, Default, PartialEq, Eq)]
pub struct Domain {
    pub tie: bool,
    pub choice: bool,
    pub pass_quota: bool,
    pub too_many: bool,
    pub recut: bool,
}

#[derive(Clone, Debug)]
pub struct Observed {
    pub refusal: Option<u32>,
    pub domain: Domain,
    pub features: Vec<(&'static str, u64)>,
}

macro_rules! features {
    ($($feature:ident $name:literal,)*) => {
        /// Every feature that is counted.
        #[derive(Clone, Copy, Debug, PartialEq, Eq)]
        pub enum Feature { $($feature,)* }
        const NAMES: &[&str] = &[$($name,)*];
    };
}

features! {
    Refusal1 "refusal 1",
    Refusal2 "refusal 2",
    Refusal3 "refusal 3",
    Refusal4 "refusal 4",
    Refusal5 "refusal 5",
    Refusal6 "refusal 6",
    Refusal7 "refusal 7",
    Refusal8 "refusal 8",
    Refusal9 "refusal 9",
    Refusal12 "refusal 12",
    Starts "starts",
    Restarts "restarts",
    Evictions "evictions",
    Preemptions "preemptions",
    SeveralVictims "preemption with two or more victims",
    InVain "preemption tried in vain",
    EarlyVictim "victim whose start was still to come",
    MigVictim "victim that is a MIG job",
    ThirdEviction "victim at its third eviction",
    Exempt "job exempt after three evictions",
    OtherTenant "candidate excluded by tenant",
    QuotaAlone "preemption helped by quota alone",
    GangNodes "gang with nodes placed",
    GangPenalised "gang placed penalised",
    OneGroup "choice over all nodes in one group",
    NoGroup "choice over all nodes by first fit with penalty",
    FirstFit "first fit",
    BestFitOneNode "best fit on one node",
    BestFitSpread "best fit spread over nodes",
    MigFree "MIG from free slices",
    MigCutUncut "MIG cut of an uncut GPU",
    MigCutCut "MIG cut of a cut GPU",
    MigOthersFirst "MIG cut with free slices of other GPUs first",
    MigFresh "MIG fresh free slices taken in the same pass",
    QuotaRefused "quota refusal in a pass",
    QuotaRefusedByPass "quota refusal due to the pass",
    TimeoutFired "timeout fired",
    StaleCompletion "stale completion",
    StaleTimeout "stale timeout",
    VictimTimeout "victim timeout queued",
    RestartPenalty "restart penalty applied",
    ReconfigurationDelay "reconfiguration delay applied",
    RemainingZero "remaining reached 0 at eviction",
    EqualTimes "equal event times",
    EqualPriority "equal priority in queue",
    EqualPriorityArrival "equal priority and arrival in queue",
    Overtaken "job placed past one found wanting",
    NegativePriority "negative priority",
    SiteAsked "site asked",
    TypeAsked "type asked",
    MemoryAsked "memory asked",
    AddedRuntime "added runtime",
    CountZero "count 0 job",
    CountZeroMig "count 0 MIG job",
    NotLoaded "profile not loaded",
    TooManySlices "slices over the profile's most",
    NotMultiple "gang count not a multiple",
}

/// Counts and flags of one run.
#[derive(Clone, Debug)]
pub struct Watch {
    pub domain: Domain,
    counts: Vec<u64>,
}

impl Default for Watch {
    fn default() -> Self {
        Watch {
            domain: Domain::default(),
            counts: vec![0; NAMES.len()],
        }
    }
}

impl Watch {
    pub fn saw(&mut self, feature: Feature) {
        self.saw_if(true, feature);
    }

    pub fn saw_if(&mut self, happened: bool, feature: Feature) {
        self.counts[feature as usize] += u64::from(happened);
    }

    /// A quota test in a pass, as it went and as it would have gone without the pass's own placings.
    pub fn saw_quota(&mut self, allowed: bool, allowed_alone: bool) {
        self.saw_if(!allowed, Feature::QuotaRefused);
        self.saw_if(allowed != allowed_alone, Feature::QuotaRefusedByPass);
        self.domain.pass_quota |= allowed != allowed_alone;
    }

    pub fn saw_choice(&mut self, choice: &Choice) {
        self.domain.choice |= choice.tied;
        self.saw(match choice.how {
            How::GangNodes => Feature::GangNodes,
            How::OneGroup => Feature::OneGroup,
            How::NoGroup => Feature::NoGroup,
            How::FirstFit => Feature::FirstFit,
            How::BestFitOneNode => Feature::BestFitOneNode,
            How::BestFitSpread => Feature::BestFitSpread,
        });
        let gang = choice.how == How::GangNodes;
        self.saw_if(gang && choice.penalised, Feature::GangPenalised);
    }

    /// A MIG job that is about to be served in this way.
    pub fn saw_mig(&mut self, view: &View, ask: &Ask, way: MigWay) {
        let MigWay::Cut(gpu) = way else {
            return self.saw(Feature::MigFree);
        };
        self.domain.recut |= recuts(view, ask, way);
        let before = view.now.room[gpu].profile;
        self.saw_if(before.is_none(), Feature::MigCutUncut);
        self.saw_if(before.is_some(), Feature::MigCutCut);
    }

    /// A queue just sorted for a pass.
    pub fn saw_queue(&mut self, trace: &Trace, queue: &[usize]) {
        let neighbours = || {
            queue
                .windows(2)
                .map(|two| (&trace.asks[two[0]], &trace.asks[two[1]]))
        };
        let priority = neighbours().any(|(one, two)| one.priority == two.priority);
        let arrival = neighbours()
            .any(|(one, two)| one.priority == two.priority && one.arrival == two.arrival);
        self.saw_if(priority, Feature::EqualPriority);
        self.saw_if(arrival, Feature::EqualPriorityArrival);
    }

    /// What a loaded trace shows before it is stepped.
    fn saw_trace(&mut self, trace: &Trace) {
        for ask in &trace.asks {
            let whole = ask.profile.is_none();
            let most = ask
                .profile
                .map(|profile| trace.profiles[usize::from(profile)]);
            let too_many = most.flatten().is_some_and(|most| ask.slices > most);
            let shares = ask.gang && ask.gang_nodes > 0;
            self.domain.too_many |= too_many;
            self.saw_if(ask.priority < 0, Feature::NegativePriority);
            self.saw_if(ask.site.is_some(), Feature::SiteAsked);
            self.saw_if(ask.model.is_some(), Feature::TypeAsked);
            self.saw_if(ask.memory > 0.0, Feature::MemoryAsked);
            self.saw_if(whole && ask.count == 0, Feature::CountZero);
            self.saw_if(!whole && ask.count == 0, Feature::CountZeroMig);
            self.saw_if(most == Some(None), Feature::NotLoaded);
            self.saw_if(too_many, Feature::TooManySlices);
            self.saw_if(
                whole && shares && !ask.count.is_multiple_of(ask.gang_nodes),
                Feature::NotMultiple,
            );
        }
    }

    fn saw_refusal(&mut self, number: u32) {
        const BY_NUMBER: [Feature; 9] = [
            Feature::Refusal1,
            Feature::Refusal2,
            Feature::Refusal3,
            Feature::Refusal4,
            Feature::Refusal5,
            Feature::Refusal6,
            Feature::Refusal7,
            Feature::Refusal8,
            Feature::Refusal9,
        ];
        for (feature, of) in BY_NUMBER.into_iter().zip(1..) {
            self.saw_if(number == of, feature);
        }
        self.saw_if(number == 12, Feature::Refusal12);
    }

    /// The questions that the detail lines ask; only those of MIG jobs can speak of a cut.
    fn saw_questions(&mut self, plan: &Plan) {
        let view = View {
            trace: &plan.trace,
            now: &plan.now,
            gone: JobSet::default(),
        };
        for ask in plan.trace.asks.iter().filter(|ask| ask.profile.is_some()) {
            let cuts_own = view.mig_way(ask).is_some_and(|way| recuts(&view, ask, way));
            if cuts_own {
                let used = usage(&plan.trace, &plan.now, ask, &[]).running;
                self.domain.recut |= within_quota(&plan.trace, ask, used);
            }
        }
    }

    fn report(self, refusal: Option<u32>) -> Observed {
        let features = NAMES.iter().copied().zip(self.counts).collect();
        Observed {
            refusal,
            domain: self.domain,
            features,
        }
    }
}

/// Whether the GPU to be cut holds slices of the job's own profile.
fn recuts(view: &View, ask: &Ask, way: MigWay) -> bool {
    match way {
        MigWay::FreeSlices => false,
        MigWay::Cut(gpu) => view.now.room[gpu].profile == ask.profile,
    }
}

/// Runs a trace to its end and says what happened; a refused step counts for nothing but its refusal.
pub fn observe(trace: &[u8]) -> Observed {
    let mut watch = Watch::default();
    let loaded = load(trace);
    if let Some(refusal) = loaded.refusal {
        watch.saw_refusal(refusal.number);
        return watch.report(Some(refusal.number));
    }
    let mut plan = loaded.plan;
    watch.saw_trace(&plan.trace);
    let mut buffer = [0; BUFFER_WORDS];
    loop {
        match step_watched(&mut plan, &mut buffer, &mut watch) {
            Ok(_) => watch.saw_questions(&plan),
            Err(12) => {
                watch.saw_refusal(12);
                return watch.report(Some(12));
            }
            Err(_) => return watch.report(None),
        }
    }
}
