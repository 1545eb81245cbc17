//! A pass: the queue in order, placing, and preemption by the shortest prefix of candidates.

use crate::place::{usage, within_quota, JobSet, MigWay, Usage, View};
use crate::plan::{Placed, Stage};
use crate::step::{NotPermitted, Work};
use crate::trace::Ask;
use crate::watch::Feature;

const EVICTIONS: u64 = 3;

impl Work<'_> {
    fn view(&self, gone: JobSet) -> View<'_> {
        View {
            trace: self.trace,
            now: &self.now,
            gone,
        }
    }

    /// Looks once at each job now waiting; victims join behind them and are not looked at.
    pub fn pass(&mut self) -> Result<(), NotPermitted> {
        self.sort_queue();
        let mut wanting = false;
        for job in self.now.queue.clone() {
            let placed = self.placeable(job) || self.preempt(job)?;
            if placed {
                self.place(job);
            }
            self.watch.saw_if(placed && wanting, Feature::Overtaken);
            wanting |= !placed;
        }
        self.start_placed()
    }

    /// Higher priority first, then earlier arrival; equals keep their order in the queue.
    fn sort_queue(&mut self) {
        let asks = &self.trace.asks;
        let place = |&job: &usize| (-asks[job].priority, asks[job].arrival.to_bits());
        self.now.queue.sort_by_key(place);
        self.watch.saw_queue(self.trace, &self.now.queue);
    }

    fn placeable(&mut self, job: usize) -> bool {
        let ask = &self.trace.asks[job];
        let usage = self.usage(ask);
        self.quota_allows(ask, usage) && self.view(JobSet::default()).fits(ask)
    }

    fn usage(&self, ask: &Ask) -> Usage {
        usage(self.trace, &self.now, ask, &self.placed)
    }

    /// Jobs placed in this pass count as if they ran.
    fn quota_allows(&mut self, ask: &Ask, usage: Usage) -> bool {
        let allowed = within_quota(self.trace, ask, usage.running + usage.placed);
        let allowed_alone = within_quota(self.trace, ask, usage.running);
        self.watch.saw_quota(allowed, allowed_alone);
        allowed
    }

    /// Evicts so that a whole-GPU job becomes placeable, and says whether it did; else all is as before.
    fn preempt(&mut self, job: usize) -> Result<bool, NotPermitted> {
        let ask = &self.trace.asks[job];
        if ask.profile.is_some() {
            return Ok(false);
        }
        let candidates = self.candidates(ask);
        let Some(victims) = self.shortest_prefix(ask, &candidates) else {
            self.watch.saw_if(!candidates.is_empty(), Feature::InVain);
            return Ok(false);
        };
        let fitted = self.view(JobSet::default()).fits(ask);
        self.watch.saw(Feature::Preemptions);
        self.watch.saw_if(fitted, Feature::QuotaAlone);
        self.watch
            .saw_if(victims.len() > 1, Feature::SeveralVictims);
        for &victim in victims {
            self.evict(victim, job)?;
        }
        Ok(true)
    }

    /// Who may have to make way, lowest priority first, then by job number.
    fn candidates(&mut self, ask: &Ask) -> Vec<usize> {
        let mut candidates = Vec::new();
        for (job, (of, other)) in self.now.jobs.iter().zip(&self.trace.asks).enumerate() {
            if of.stage != Stage::Running || other.priority >= ask.priority {
                continue;
            }
            let worn = of.evictions >= EVICTIONS;
            let aware = self.trace.options.quota_aware;
            let allowed = !aware || ask.tenant.is_none() || other.tenant == ask.tenant;
            self.watch.saw_if(worn && allowed, Feature::Exempt);
            self.watch.saw_if(!worn && !allowed, Feature::OtherTenant);
            if !worn && allowed {
                candidates.push(job);
            }
        }
        candidates.sort_by_key(|&job| (self.trace.asks[job].priority, job));
        candidates
    }

    /// The fewest first candidates whose leaving makes the job placeable, useful ones or not.
    fn shortest_prefix<'c>(&mut self, ask: &Ask, candidates: &'c [usize]) -> Option<&'c [usize]> {
        let mut everyone = JobSet::default();
        candidates.iter().for_each(|&victim| everyone.add(victim));
        // More room never hurts: where all of them leaving is too little, so is every prefix.
        let hopeful = self.view(everyone).fits(ask);
        let mut usage = self.usage(ask);
        let mut gone = JobSet::default();
        for (at, &victim) in candidates.iter().enumerate() {
            let leaver = &self.trace.asks[victim];
            gone.add(victim);
            if leaver.tenant == ask.tenant {
                usage.running = usage.running.saturating_sub(leaver.count as u64);
            }
            if self.quota_allows(ask, usage) && hopeful && self.view(gone).fits(ask) {
                return candidates.get(..=at);
            }
        }
        None
    }

    /// Gives a job that is placeable its resources; it starts when the pass is over.
    fn place(&mut self, job: usize) {
        let ask = &self.trace.asks[job];
        let placed = match ask.profile {
            Some(profile) => self.place_slices(job, ask, profile),
            None => self.place_whole(job, ask),
        };
        self.placed.extend(placed);
    }

    fn place_whole(&mut self, job: usize, ask: &Ask) -> Option<Placed> {
        let choice = self.view(JobSet::default()).choose(ask)?;
        self.watch.saw_choice(&choice);
        for &gpu in &choice.gpus {
            self.now.room[gpu].owner = Some(job as u8);
        }
        Some(Placed {
            job,
            penalised: choice.penalised,
            cut: None,
        })
    }

    fn place_slices(&mut self, job: usize, ask: &Ask, profile: u8) -> Option<Placed> {
        let view = View {
            trace: self.trace,
            now: &self.now,
            gone: JobSet::default(),
        };
        let way = view.mig_way(ask)?;
        self.watch.saw_mig(&view, ask, way);
        let cut = match way {
            MigWay::FreeSlices => None,
            MigWay::Cut(gpu) => Some(gpu),
        };
        // Free slices elsewhere are noted before the cut, so that the new ones come after them.
        let elsewhere = view
            .free_slices(profile)
            .filter(|&(gpu, _)| Some(gpu) != cut);
        let mut slices: Vec<(usize, usize)> = elsewhere.collect();
        if let Some(gpu) = cut {
            self.watch
                .saw_if(!slices.is_empty(), Feature::MigOthersFirst);
            self.cut(gpu, profile, ask.slices);
            slices.extend((0..ask.slices).map(|slice| (gpu, slice)));
        }
        slices.truncate(ask.slices);
        let fresh = self
            .placed
            .iter()
            .any(|one| slices.iter().any(|s| Some(s.0) == one.cut));
        self.watch.saw_if(fresh, Feature::MigFresh);
        for (gpu, slice) in slices {
            self.now.room[gpu].slice_owners[slice] = Some(job as u8);
        }
        Some(Placed {
            job,
            penalised: false,
            cut,
        })
    }

    /// Cuts an idle GPU anew into exactly so many free slices.
    fn cut(&mut self, gpu: usize, profile: u8, slices: usize) {
        let held = &mut self.now.room[gpu];
        held.profile = Some(profile);
        held.slices = slices;
        held.slice_owners = Default::default();
        self.now.totals.cuts += 1;
    }
}
