//! Placeable: quota, eligible GPUs, the choices among them, MIG slices, and the public question.

use std::collections::BTreeMap;

use crate::plan::{Placed, Plan, Stage, State};
use crate::trace::{Ask, Trace, NODES};

/// A set of jobs; one bit for each of the 128.
#[derive(Clone, Copy, Debug, Default)]
pub struct JobSet(u128);

impl JobSet {
    pub fn add(&mut self, job: usize) {
        self.0 |= 1 << job;
    }

    pub fn has(self, job: u8) -> bool {
        self.0 & (1 << job) != 0
    }
}

/// The resources as a job would find them once the jobs of `gone` have left.
#[derive(Clone, Copy)]
pub struct View<'a> {
    pub trace: &'a Trace,
    pub now: &'a State,
    pub gone: JobSet,
}

/// GPU counts charged to a tenant, the pass's own placings told apart from what runs.
#[derive(Clone, Copy, Debug, Default)]
pub struct Usage {
    pub running: u64,
    pub placed: u64,
}

/// How the GPUs of a whole-GPU job were chosen.
#[derive(Clone, Copy, Debug, PartialEq, Eq)]
pub enum How {
    GangNodes,
    OneGroup,
    NoGroup,
    FirstFit,
    BestFitOneNode,
    BestFitSpread,
}

#[derive(Clone, Debug)]
pub struct Choice {
    pub gpus: Vec<usize>,
    pub penalised: bool,
    pub how: How,
    /// Two takings were equally good, so that only the stated tie order decided.
    pub tied: bool,
}

/// Where a MIG job's slices come from.
#[derive(Clone, Copy, Debug, PartialEq, Eq)]
pub enum MigWay {
    FreeSlices,
    Cut(usize),
}

/// The question: may this job be placed now? Refusal 13 for a job that is not loaded.
pub fn placeable(plan: &Plan, job: usize) -> Result<bool, u32> {
    let Some(ask) = plan.trace.asks.get(job) else {
        return Err(13);
    };
    let view = View {
        trace: &plan.trace,
        now: &plan.now,
        gone: JobSet::default(),
    };
    let usage = usage(&plan.trace, &plan.now, ask, &[]);
    Ok(within_quota(&plan.trace, ask, usage.running) && view.fits(ask))
}

/// What the job's tenant uses: its running jobs, and its jobs among those placed in this pass.
pub fn usage(trace: &Trace, now: &State, ask: &Ask, placed: &[Placed]) -> Usage {
    let mut usage = Usage::default();
    if quota(trace, ask).is_none() {
        return usage;
    }
    for (other, job) in trace.asks.iter().zip(&now.jobs) {
        if job.stage == Stage::Running && other.tenant == ask.tenant {
            usage.running += other.count as u64;
        }
    }
    for other in placed.iter().map(|placed| &trace.asks[placed.job]) {
        if other.tenant == ask.tenant {
            usage.placed += other.count as u64;
        }
    }
    usage
}

/// The quota that binds a job; none where it has no tenant or the tenant no entry.
pub fn quota(trace: &Trace, ask: &Ask) -> Option<u64> {
    trace.quotas[usize::from(ask.tenant?)]
}

pub fn within_quota(trace: &Trace, ask: &Ask, used: u64) -> bool {
    match quota(trace, ask) {
        None => true,
        Some(quota) => used + ask.count as u64 <= quota,
    }
}

impl View<'_> {
    fn unowned(&self, owner: Option<u8>) -> bool {
        owner.is_none_or(|job| self.gone.has(job))
    }

    /// Whether the resources suffice, quota aside.
    pub fn fits(&self, ask: &Ask) -> bool {
        if ask.profile.is_some() {
            self.mig_way(ask).is_some()
        } else {
            self.whole_fits(ask)
        }
    }

    fn eligible(&self, ask: &Ask, gpu: usize) -> bool {
        let made = &self.trace.gpus[gpu];
        let held = &self.now.room[gpu];
        self.unowned(held.owner)
            && held.profile.is_none()
            && made.memory >= ask.memory
            && ask.model.is_none_or(|model| model == made.model)
            && (ask.site.is_none() || ask.site == self.trace.nodes[made.node].site)
    }

    /// The eligible GPUs in table order.
    fn all_eligible(&self, ask: &Ask) -> Vec<usize> {
        (0..self.trace.gpus.len())
            .filter(|&gpu| self.eligible(ask, gpu))
            .collect()
    }

    /// The eligible GPUs of each node, nodes by number, GPUs in table order.
    fn eligible_by_node(&self, ask: &Ask) -> Vec<Vec<usize>> {
        let mut nodes = vec![Vec::new(); self.trace.nodes.len()];
        for gpu in self.all_eligible(ask) {
            nodes[self.trace.gpus[gpu].node].push(gpu);
        }
        nodes
    }

    /// Parts GPUs by link group: none first, then 0, 1 and so on; those without a group are one of their own.
    fn by_group(&self, gpus: &[usize]) -> BTreeMap<Option<u8>, Vec<usize>> {
        let mut groups: BTreeMap<Option<u8>, Vec<usize>> = BTreeMap::new();
        for &gpu in gpus {
            groups
                .entry(self.trace.gpus[gpu].group)
                .or_default()
                .push(gpu);
        }
        groups
    }

    fn whole_fits(&self, ask: &Ask) -> bool {
        if ask.count == 0 {
            return false;
        }
        if ask.gang && ask.gang_nodes > 0 {
            let whole_shares = ask.count.is_multiple_of(ask.gang_nodes);
            return whole_shares && self.gang_fits(ask, ask.count / ask.gang_nodes);
        }
        let enough = (0..self.trace.gpus.len()).filter(|&gpu| self.eligible(ask, gpu));
        enough.take(ask.count).count() == ask.count
    }

    /// So many nodes have a share each; counted without lists, since tests far outnumber placings.
    fn gang_fits(&self, ask: &Ask, share: usize) -> bool {
        let mut eligible = [0; NODES];
        for (gpu, made) in self.trace.gpus.iter().enumerate() {
            eligible[made.node] += usize::from(self.eligible(ask, gpu));
        }
        let nodes = eligible.iter().take(self.trace.nodes.len());
        nodes.filter(|&&here| here >= share).count() >= ask.gang_nodes
    }

    /// The GPUs for a whole-GPU job that fits; none if it does not.
    pub fn choose(&self, ask: &Ask) -> Option<Choice> {
        if !self.whole_fits(ask) {
            return None;
        }
        Some(if ask.gang && ask.gang_nodes > 0 {
            self.gang_choice(ask)
        } else if ask.gang || ask.network {
            self.group_choice(ask)
        } else if self.trace.options.best_fit {
            self.best_fit(ask)
        } else {
            self.first_fit(ask, How::FirstFit)
        })
    }

    /// An equal share on each of so many nodes, nodes that can give it from one group first.
    fn gang_choice(&self, ask: &Ask) -> Choice {
        let share = ask.count / ask.gang_nodes;
        let mut linked = Vec::new();
        let mut mixed = Vec::new();
        let mut tied = false;
        for here in self
            .eligible_by_node(ask)
            .iter()
            .filter(|here| here.len() >= share)
        {
            let groups = self.by_group(here);
            let mut enough = groups.values().filter(|group| group.len() >= share);
            match enough.next() {
                Some(group) => linked.push(group[..share].to_vec()),
                None => mixed.push(here[..share].to_vec()),
            }
            tied |= enough.next().is_some();
        }
        let penalised = linked.len() < ask.gang_nodes;
        let gpus = linked
            .into_iter()
            .chain(mixed)
            .take(ask.gang_nodes)
            .flatten()
            .collect();
        Choice {
            gpus,
            penalised,
            how: How::GangNodes,
            tied,
        }
    }

    /// All from the fullest group that is large enough, wherever its GPUs stand.
    fn group_choice(&self, ask: &Ask) -> Choice {
        let groups = self.by_group(&self.all_eligible(ask));
        let most = groups.values().map(Vec::len).max().unwrap_or(0);
        let mut fullest = groups.values().filter(|group| group.len() == most);
        match fullest.next() {
            Some(group) if most >= ask.count => Choice {
                gpus: group[..ask.count].to_vec(),
                penalised: false,
                how: How::OneGroup,
                tied: fullest.next().is_some(),
            },
            _ => Choice {
                penalised: true,
                ..self.first_fit(ask, How::NoGroup)
            },
        }
    }

    fn first_fit(&self, ask: &Ask, how: How) -> Choice {
        let mut gpus = self.all_eligible(ask);
        gpus.truncate(ask.count);
        Choice {
            gpus,
            penalised: false,
            how,
            tied: false,
        }
    }

    /// The node that the job fills best, else as few nodes as possible from the fullest on.
    fn best_fit(&self, ask: &Ask) -> Choice {
        let mut nodes = self.eligible_by_node(ask);
        let large = nodes.iter().filter(|node| node.len() >= ask.count);
        let least = large.map(Vec::len).min();
        if let Some(least) = least {
            let mut closest = nodes.iter().filter(|node| node.len() == least);
            let gpus = closest
                .next()
                .map(|node| node[..ask.count].to_vec())
                .unwrap_or_default();
            let tied = closest.next().is_some();
            return Choice {
                gpus,
                penalised: false,
                how: How::BestFitOneNode,
                tied,
            };
        }
        // A stable sort keeps the node numbers' order among equals.
        nodes.sort_by_key(|node| std::cmp::Reverse(node.len()));
        let gpus = nodes.into_iter().flatten().take(ask.count).collect();
        Choice {
            gpus,
            penalised: false,
            how: How::BestFitSpread,
            tied: false,
        }
    }

    /// How a MIG job would be served, if it can be; it never preempts, so nobody is gone here.
    pub fn mig_way(&self, ask: &Ask) -> Option<MigWay> {
        let profile = ask.profile?;
        let most = self.trace.profiles[usize::from(profile)]?;
        if self.free_slices(profile).take(ask.slices).count() == ask.slices {
            return Some(MigWay::FreeSlices);
        }
        if ask.slices > most {
            return None;
        }
        self.first_idle().map(MigWay::Cut)
    }

    /// The free slices of a profile as GPU and slice, in table order.
    pub fn free_slices(&self, profile: u8) -> impl Iterator<Item = (usize, usize)> + '_ {
        let cut = self.now.room.iter().enumerate();
        cut.filter(move |(_, held)| held.profile == Some(profile))
            .flat_map(|(gpu, held)| {
                let owners = held.owners().iter().enumerate();
                owners
                    .filter(|(_, owner)| owner.is_none())
                    .map(move |(slice, _)| (gpu, slice))
            })
    }

    /// The first MIG-capable GPU that nobody holds any part of, cut before or not.
    fn first_idle(&self) -> Option<usize> {
        let gpus = self.trace.gpus.iter().zip(&self.now.room);
        gpus.into_iter()
            .position(|(made, held)| made.mig_capable && held.wholly_idle())
    }
}
