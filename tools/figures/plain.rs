//! A plain program with the commands `check`, `play`, `audit`, `run`, `soak` and `plan` of `jailhouse`, written from its
//! published documents alone: ordered and hashed maps, sorted vectors, no proofs.

use std::collections::HashMap;
use std::fmt::{self, Display, Write as _};
use std::fs::File;
use std::io::{Read as _, Write as _};
use std::process::exit;
use std::sync::Mutex;

const ADDRESS_END: u64 = 1 << 48;
const PAGE: u64 = 4096;
const MAX_FINDINGS: usize = 1000;
const MAX_ENTRIES: usize = 262_144;
const MAX_ITEMS: usize = 262_144;
const MAX_OPS: usize = 4096;
const FILE_LIMIT: usize = 1 << 20;
const JOURNAL_LIMIT: usize = 32 << 20;
const USAGE: &str = "usage: jailhouse check SYSTEM CELL... | pack SPEC | play BOARD SCHEDULE | run BOARD | \
map BOARD SCHEDULE | tables BOARD SCHEDULE | audit BOARD JOURNAL | soak N | plan SYSTEM DEMANDS | pins BOARD SCHEDULE\n";

const READ: u64 = 0x1;
const WRITE: u64 = 0x2;
const EXECUTE: u64 = 0x4;
const COMM_REGION: u64 = 0x20;
const LOADABLE: u64 = 0x40;
const ROOTSHARED: u64 = 0x80;
const NO_HUGEPAGES: u64 = 0x100;
const IO_UNALIGNED: u64 = 0x8000;
const IO_8: u64 = 0x10000;

const PASSIVE_COMMREG: u32 = 0x1;

const CPU_OFF: u64 = 0x8400_0002;
const CPU_ON: u64 = 0xc400_0003;
const AFFINITY_INFO: u64 = 0xc400_0004;
const INVALID_PARAMETERS: i64 = -2;
const DENIED: i64 = -3;
const ALREADY_ON: i64 = -4;

// ---------------------------------------------------------------------------------------------------------
// Configurations

fn u16_at(bytes: &[u8], at: usize) -> u16 {
    u16::from_le_bytes(bytes[at..at + 2].try_into().unwrap())
}

fn u32_at(bytes: &[u8], at: usize) -> u32 {
    u32::from_le_bytes(bytes[at..at + 4].try_into().unwrap())
}

fn u64_at(bytes: &[u8], at: usize) -> u64 {
    u64::from_le_bytes(bytes[at..at + 8].try_into().unwrap())
}

#[derive(Clone, Copy, Debug)]
struct Region {
    phys: u64,
    virt: u64,
    size: u64,
    flags: u64,
}

impl Region {
    fn read(bytes: &[u8]) -> Region {
        Region {
            phys: u64_at(bytes, 0),
            virt: u64_at(bytes, 8),
            size: u64_at(bytes, 16),
            flags: u64_at(bytes, 24),
        }
    }

    fn has(&self, flag: u64) -> bool {
        self.flags & flag != 0
    }

    fn is_page_mapped(&self) -> bool {
        (self.virt | self.size) % PAGE == 0
    }

    fn is_unshared(&self) -> bool {
        !self.has(COMM_REGION | ROOTSHARED)
    }

    /// The addresses of a region that isn't empty, as first and last.
    fn addresses(&self) -> (u64, u64) {
        (self.virt, self.virt.saturating_add(self.size - 1))
    }

    /// The places of a region that isn't empty, as first and last.
    fn places(&self) -> (u64, u64) {
        (self.phys, self.phys.saturating_add(self.size - 1))
    }
}

#[derive(Clone, Copy, Debug)]
struct Device {
    kind: u8,
    bdf: u16,
    bar_mask: [u32; 6],
    vectors: u16,
    first_region: u32,
    id: u8,
    peers: u8,
    protocol: u16,
}

impl Device {
    fn read(bytes: &[u8]) -> Device {
        Device {
            kind: bytes[0],
            bdf: u16_at(bytes, 4),
            bar_mask: std::array::from_fn(|i| u32_at(bytes, 6 + 4 * i)),
            vectors: u16_at(bytes, 36),
            first_region: u32_at(bytes, 48),
            id: bytes[52],
            peers: bytes[53],
            protocol: u16_at(bytes, 54),
        }
    }

    fn is_shmem(&self) -> bool {
        self.kind == 3
    }

    /// The sections of the device, where all of them exist.
    fn sections<'a>(&self, cell: &'a CellConfig) -> Option<&'a [Region]> {
        let first = self.first_region as usize;
        cell.regions.get(first..first + 2 + self.peers as usize)
    }

    /// The offset of a region among the sections, if it is one.
    fn offset_of(&self, region: usize) -> Option<usize> {
        let offset = region.checked_sub(self.first_region as usize)?;
        (offset < 2 + self.peers as usize).then_some(offset)
    }
}

#[derive(Clone, Debug)]
struct CellConfig {
    name: String,
    id: u32,
    flags: u32,
    timeout: u64,
    console: [u8; 32],
    cpu_set: Vec<u8>,
    regions: Vec<Region>,
    devices: Vec<Device>,
}

impl CellConfig {
    fn is_passive(&self) -> bool {
        self.flags & PASSIVE_COMMREG != 0
    }

    fn cpus(&self) -> impl Iterator<Item = usize> + '_ {
        (0..8 * self.cpu_set.len()).filter(|i| self.cpu_set[i / 8] >> (i % 8) & 1 == 1)
    }

    fn shmem_devices(&self) -> impl Iterator<Item = (usize, &Device)> {
        self.devices.iter().enumerate().filter(|(_, device)| device.is_shmem())
    }
}

#[derive(Clone, Debug)]
struct SystemConfig {
    hypervisor: Region,
    ecam_base: u64,
    end_bus: u8,
    root: CellConfig,
}

enum ConfigFault {
    Short(u64),
    Signature,
    Revision(u16),
    Name,
    Count(&'static str, u64),
    Trailing(u64),
}

impl Display for ConfigFault {
    fn fmt(&self, f: &mut fmt::Formatter) -> fmt::Result {
        match self {
            ConfigFault::Short(need) => write!(f, "short {need}"),
            ConfigFault::Signature => write!(f, "signature"),
            ConfigFault::Revision(found) => write!(f, "revision {found}"),
            ConfigFault::Name => write!(f, "name"),
            ConfigFault::Count(field, found) => write!(f, "count {field} {found}"),
            ConfigFault::Trailing(extra) => write!(f, "trailing {extra}"),
        }
    }
}

/// The parts of a configuration in their order: the name of the count, the size of one, the least and the most.
const PARTS: [(&str, usize, u32, u32); 8] = [
    ("cpu_set_size", 1, 1, 64),
    ("num_memory_regions", 32, 0, 1024),
    ("num_cache_regions", 12, 0, 1024),
    ("num_irqchips", 32, 0, 64),
    ("num_pio_regions", 4, 0, 1024),
    ("num_pci_devices", 56, 0, 256),
    ("num_pci_caps", 8, 0, 1024),
    ("num_stream_ids", 4, 0, 1024),
];

const CELL_HEADER: usize = 132;
const SYSTEM_HEADER: usize = 220;
const CELL_LIMIT: usize = 65_536;

fn test_head(bytes: &[u8], signature: &[u8], need: usize) -> Result<(), ConfigFault> {
    if bytes.len() < need {
        return Err(ConfigFault::Short(need as u64));
    }
    if !bytes.starts_with(signature) {
        return Err(ConfigFault::Signature);
    }
    match u16_at(bytes, 6) {
        13 => Ok(()),
        other => Err(ConfigFault::Revision(other)),
    }
}

/// The name and the counts of a header from its name on.
fn read_header(header: &[u8]) -> Result<(String, [usize; 8]), ConfigFault> {
    let length = header[..32].iter().position(|&byte| byte == 0).unwrap_or(32);
    let (name, rest) = header[..32].split_at(length);
    let is_good = (1..=31).contains(&length)
        && name.iter().all(|byte| (0x20..=0x7e).contains(byte))
        && rest.iter().all(|&byte| byte == 0);
    if !is_good {
        return Err(ConfigFault::Name);
    }
    let mut counts = [0; 8];
    for (i, (field, _, least, most)) in PARTS.iter().enumerate() {
        let count = u32_at(header, 40 + 4 * i);
        if count < *least || count > *most {
            return Err(ConfigFault::Count(field, count as u64));
        }
        counts[i] = count as usize;
    }
    Ok((String::from_utf8_lossy(name).into_owned(), counts))
}

fn total_of(counts: &[usize; 8]) -> usize {
    CELL_HEADER + counts.iter().zip(PARTS).map(|(count, part)| count * part.1).sum::<usize>()
}

/// Reads a configuration whose name begins at `at`.
fn read_body(bytes: &[u8], at: usize) -> Result<CellConfig, ConfigFault> {
    let header = &bytes[at..at + 124];
    let (name, counts) = read_header(header)?;
    let total = total_of(&counts);
    if total > CELL_LIMIT {
        return Err(ConfigFault::Count("total", total as u64));
    }
    let need = at - 8 + total;
    if bytes.len() < need {
        return Err(ConfigFault::Short(need as u64));
    }
    if bytes.len() > need {
        return Err(ConfigFault::Trailing((bytes.len() - need) as u64));
    }
    let mut rest = &bytes[at + 124..];
    let mut parts = [&[][..]; 8];
    for (i, part) in parts.iter_mut().enumerate() {
        (*part, rest) = rest.split_at(counts[i] * PARTS[i].1);
    }
    Ok(CellConfig {
        name,
        id: u32_at(header, 32),
        flags: u32_at(header, 36),
        timeout: u64_at(header, 84),
        console: header[92..124].try_into().unwrap(),
        cpu_set: parts[0].to_vec(),
        regions: parts[1].chunks_exact(32).map(Region::read).collect(),
        devices: parts[5].chunks_exact(56).map(Device::read).collect(),
    })
}

fn read_cell(bytes: &[u8]) -> Result<CellConfig, ConfigFault> {
    test_head(bytes, b"JHCELL", CELL_HEADER)?;
    read_body(bytes, 8)
}

fn read_system(bytes: &[u8]) -> Result<SystemConfig, ConfigFault> {
    test_head(bytes, b"JHSYST", SYSTEM_HEADER)?;
    Ok(SystemConfig {
        hypervisor: Region::read(&bytes[12..44]),
        ecam_base: u64_at(bytes, 76),
        end_bus: bytes[84],
        root: read_body(bytes, 96)?,
    })
}

// ---------------------------------------------------------------------------------------------------------
// The check

const H: u32 = 16;

/// A finding, in the order in which findings are told.
#[derive(Clone, Copy, PartialEq, Eq, PartialOrd, Ord)]
struct Finding {
    number: u8,
    cell: u32,
    other_cell: u32,
    item: u32,
    other_item: u32,
}

impl Finding {
    fn of(number: u8, cell: usize, item: usize) -> Finding {
        Finding::between(number, (cell, item), (0, 0))
    }

    fn between(number: u8, one: (usize, usize), other: (usize, usize)) -> Finding {
        Finding {
            number,
            cell: one.0 as u32,
            other_cell: other.0 as u32,
            item: one.1 as u32,
            other_item: other.1 as u32,
        }
    }
}

const NAMES: [&str; 14] = [
    "", "VirtOverlap", "PhysOverlap", "Hypervisor", "OutOfRange", "RootNotIdentity", "CommInRoot", "CommShape",
    "ExecuteWithoutRead", "SubpageTaken", "CellsOverlap", "Shmem", "NoCpu", "PhysAlign",
];

impl Display for Finding {
    fn fmt(&self, f: &mut fmt::Formatter) -> fmt::Result {
        let Finding { number, cell, other_cell, item, other_item } = *self;
        write!(f, "{number} {} ", NAMES[number as usize])?;
        match number {
            _ if cell == H => write!(f, "h"),
            1 | 2 | 9 | 10 => write!(f, "{cell}.{item} {other_cell}.{other_item}"),
            11 => write!(f, "{cell}.d{item}"),
            12 => write!(f, "{cell}"),
            _ => write!(f, "{cell}.{item}"),
        }
    }
}

/// The first findings in their order; more are cut from time to time.
#[derive(Default)]
struct Findings(Vec<Finding>);

impl Findings {
    fn push(&mut self, finding: Finding) {
        self.0.push(finding);
        if self.0.len() >= 32 * MAX_FINDINGS {
            self.cut();
        }
    }

    fn cut(&mut self) {
        self.0.sort();
        self.0.truncate(MAX_FINDINGS);
    }

    fn list(mut self) -> Vec<Finding> {
        self.cut();
        self.0
    }
}

/// A range of places or addresses of one region.
#[derive(Clone, Copy)]
struct Span {
    first: u64,
    last: u64,
    cell: usize,
    region: usize,
}

fn meets(one: (u64, u64), other: (u64, u64)) -> bool {
    one.0 <= other.1 && other.0 <= one.1
}

fn spans_of<'a>(
    cell: usize,
    config: &'a CellConfig,
    range: impl Fn(&Region) -> (u64, u64) + 'a,
    counts: impl Fn(&Region) -> bool + 'a,
) -> impl Iterator<Item = Span> + 'a {
    config.regions.iter().enumerate().filter(move |(_, r)| r.size > 0 && counts(r)).map(move |(region, r)| {
        let (first, last) = range(r);
        Span { first, last, cell, region }
    })
}

/// Calls `found` with any two spans that meet, the one of the lower cell and region first.
fn each_meeting(mut spans: Vec<Span>, mut found: impl FnMut(&Span, &Span)) {
    spans.sort_by_key(|span| span.first);
    let mut open: Vec<Span> = Vec::new();
    for span in spans {
        open.retain(|other| other.last >= span.first);
        for other in &open {
            if (other.cell, other.region) < (span.cell, span.region) {
                found(other, &span);
            } else {
                found(&span, other);
            }
        }
        open.push(span);
    }
}

fn virt_spans(number: usize, config: &CellConfig) -> Vec<Span> {
    spans_of(number, config, Region::addresses, |_| true).collect()
}

fn phys_spans(number: usize, config: &CellConfig) -> impl Iterator<Item = Span> + '_ {
    spans_of(number, config, Region::places, |region| !region.has(COMM_REGION))
}

fn hypervisor_places(system: &SystemConfig) -> Option<(u64, u64)> {
    (system.hypervisor.size > 0).then(|| system.hypervisor.places())
}

/// The findings about single regions of a cell, and about its CPUs.
fn check_alone(system: &SystemConfig, number: usize, cell: &CellConfig, found: &mut impl FnMut(Finding)) {
    let hypervisor = hypervisor_places(system);
    let mut comm_seen = false;
    for (r, region) in cell.regions.iter().enumerate().filter(|(_, region)| region.size > 0) {
        let is_comm = region.has(COMM_REGION);
        let mut tell = |rule, holds: bool| {
            if holds {
                found(Finding::of(rule, number, r));
            }
        };
        tell(3, !is_comm && hypervisor.is_some_and(|h| meets(region.places(), h)));
        let is_beyond = |(_, last)| last >= ADDRESS_END;
        tell(4, is_beyond(region.addresses()) || !is_comm && is_beyond(region.places()));
        tell(5, number == 0 && region.phys != region.virt);
        tell(6, number == 0 && is_comm);
        tell(7, number != 0 && is_comm && (region.size != PAGE || region.virt % PAGE != 0 || comm_seen));
        tell(8, region.has(EXECUTE) && !region.has(READ));
        tell(13, region.is_page_mapped() && !is_comm && region.phys % PAGE != 0);
        comm_seen |= is_comm;
    }
    let mut cpus = cell.cpus();
    let first = cpus.next();
    if first.is_none() || cpus.last().or(first).is_some_and(|last| last > 15) {
        found(Finding::of(12, number, 0));
    }
}

fn check_hypervisor(system: &SystemConfig, found: &mut impl FnMut(Finding)) {
    let h = &system.hypervisor;
    if h.size == 0 || h.size > 64 << 20 || h.places().1 >= ADDRESS_END {
        found(Finding::of(4, H as usize, 0));
    }
    if h.size > 0 && (h.phys | h.size) % PAGE != 0 {
        found(Finding::of(13, H as usize, 0));
    }
}

/// The ivshmem devices of cells by their place on the bus, and by the regions that are their sections.
struct Links<'a> {
    cells: &'a [&'a CellConfig],
    by_bdf: HashMap<u16, Vec<(usize, usize)>>,
    by_region: Vec<Vec<Vec<usize>>>,
}

impl Links<'_> {
    fn new<'a>(cells: &'a [&'a CellConfig]) -> Links<'a> {
        let mut links = Links { cells, by_bdf: HashMap::new(), by_region: vec![Vec::new(); cells.len()] };
        for (number, cell) in cells.iter().enumerate() {
            for (d, device) in cell.shmem_devices() {
                links.by_bdf.entry(device.bdf).or_default().push((number, d));
                let sections = &mut links.by_region[number];
                let first = device.first_region as usize;
                let end = (first + 2 + device.peers as usize).min(cell.regions.len());
                sections.resize(end.max(sections.len()), Vec::new());
                for region in first..end {
                    sections[region].push(d);
                }
            }
        }
        links
    }

    fn device(&self, (cell, device): (usize, usize)) -> &Device {
        &self.cells[cell].devices[device]
    }

    /// Whether two regions, each told by its cell and its number, are sections at the same offset of two linked
    /// devices.
    fn are_same_section(&self, one: (usize, usize), two: (usize, usize)) -> bool {
        let of_one = self.by_region[one.0].get(one.1).into_iter().flatten();
        of_one.map(|&d| self.device((one.0, d))).any(|device| {
            let offset = device.offset_of(one.1);
            let linked = self.by_bdf[&device.bdf].iter().filter(|(cell, _)| *cell == two.0);
            linked.map(|&at| self.device(at)).any(|other| other.offset_of(two.1) == offset)
        })
    }

    /// Whether two regions of different cells besides root that have a place in common are a finding.
    fn is_overlap(&self, one: (usize, usize), two: (usize, usize)) -> bool {
        let flags = self.cells[one.0].regions[one.1].flags & self.cells[two.0].regions[two.1].flags;
        flags & ROOTSHARED == 0 && !self.are_same_section(one, two)
    }

    /// The findings about the devices of a cell, beside the cells before it.
    fn check_devices(&self, number: usize, found: &mut impl FnMut(Finding)) {
        let cell = self.cells[number];
        for (d, device) in cell.shmem_devices() {
            let mut linked = self.by_bdf[&device.bdf].iter().take_while(|&&at| at < (number, d));
            let is_good = is_good_device(cell, device)
                && linked.all(|&at| at.0 < number && agrees(cell, device, self.cells[at.0], self.device(at)));
            if !is_good {
                found(Finding::of(11, number, d));
            }
        }
    }
}

/// Whether a device keeps the rules that speak of its own cell alone.
fn is_good_device(cell: &CellConfig, device: &Device) -> bool {
    let masks = [0xffff_f000, if device.vectors == 0 { 0 } else { 0xffff_fe00 }, 0, 0, 0, 0];
    if !(2..=16).contains(&device.peers) || device.id >= device.peers {
        return false;
    }
    if device.vectors > 16 || device.bar_mask != masks {
        return false;
    }
    let Some(sections) = device.sections(cell) else { return false };
    let table = &sections[0];
    let outputs = &sections[2..];
    let follows = |(end, good): (Option<u64>, bool), section: &Region| {
        let fits = end.is_none_or(|end| end == section.virt);
        (section.virt.checked_add(section.size), good && fits)
    };
    (4096..=65536).contains(&table.size)
        && table.has(READ)
        && !table.has(WRITE)
        && sections.iter().all(|section| !section.has(COMM_REGION | LOADABLE) && section.is_page_mapped())
        && outputs.iter().enumerate().all(|(p, output)| p == device.id as usize || !output.has(WRITE))
        && outputs.iter().all(|output| output.size == outputs[0].size)
        && sections.iter().filter(|section| section.size > 0).fold((None, true), follows).1
}

/// Whether a device of a later cell agrees with one that it is linked with.
fn agrees(cell: &CellConfig, device: &Device, other_cell: &CellConfig, other: &Device) -> bool {
    let (Some(sections), Some(others)) = (device.sections(cell), other.sections(other_cell)) else { return false };
    device.peers == other.peers
        && device.id != other.id
        && sections.iter().zip(others).all(|(one, two)| one.size == two.size && (one.size == 0 || one.phys == two.phys))
}

fn is_subpage_taken(root: &Region, region: &Region) -> bool {
    root.is_page_mapped() && !region.is_page_mapped() && region.is_unshared()
}

fn check(system: &SystemConfig, others: &[CellConfig]) -> Vec<Finding> {
    let cells: Vec<&CellConfig> = std::iter::once(&system.root).chain(others).collect();
    let links = Links::new(&cells);
    let mut findings = Findings::default();
    let mut found = |finding| findings.push(finding);
    check_hypervisor(system, &mut found);
    for (number, cell) in cells.iter().enumerate() {
        check_alone(system, number, cell, &mut found);
        links.check_devices(number, &mut found);
        each_meeting(virt_spans(number, cell), |one, two| {
            found(Finding::between(1, (number, one.region), (number, two.region)));
        });
    }
    let places = cells.iter().enumerate().flat_map(|(number, cell)| phys_spans(number, cell)).collect();
    each_meeting(places, |one, two| {
        let is_found = match (one.cell, two.cell) {
            (a, b) if a == b => Some(2),
            (0, _) => None,
            (a, b) => links.is_overlap((a, one.region), (b, two.region)).then_some(10),
        };
        if let Some(rule) = is_found {
            found(Finding::between(rule, (one.cell, one.region), (two.cell, two.region)));
        }
    });
    check_subpages(&cells, &mut found);
    findings.list()
}

/// Finds unshared subpage regions over page-mapped regions of root, also where that is a communication region.
fn check_subpages(cells: &[&CellConfig], found: &mut impl FnMut(Finding)) {
    let is_pages = |region: &Region| region.is_page_mapped();
    let is_subpage = |region: &Region| !region.is_page_mapped() && region.is_unshared();
    let mut spans: Vec<Span> = Vec::new();
    for (number, cell) in cells.iter().enumerate().skip(1) {
        spans.extend(spans_of(number, cell, Region::places, is_subpage));
    }
    if spans.is_empty() {
        return;
    }
    spans.extend(spans_of(0, cells[0], Region::places, is_pages));
    each_meeting(spans, |root, span| {
        if root.cell == 0 && span.cell != 0 {
            found(Finding::between(9, (span.cell, span.region), (0, root.region)));
        }
    });
}

/// Places of a cell in order.
fn sorted_places(cell: &CellConfig) -> Vec<Span> {
    let mut places: Vec<Span> = phys_spans(0, cell).collect();
    places.sort_by_key(|span| span.first);
    places
}

/// Whether any two of sorted spans meet.
fn any_meet(spans: &[Span]) -> bool {
    spans.windows(2).any(|two| two[0].last >= two[1].first)
}

/// Calls `found` for two sorted lists of disjoint spans with any two that meet.
fn any_between(ones: &[Span], twos: &[Span], mut is_found: impl FnMut(&Span, &Span) -> bool) -> bool {
    let (mut i, mut k) = (0, 0);
    while i < ones.len() && k < twos.len() {
        let (one, two) = (&ones[i], &twos[k]);
        if one.last < two.first {
            i += 1;
        } else if two.last < one.first {
            k += 1;
        } else {
            if is_found(one, two) {
                return true;
            }
            if one.last < two.last {
                i += 1;
            } else {
                k += 1;
            }
        }
    }
    false
}

// ---------------------------------------------------------------------------------------------------------
// Pages of tables

/// Whether slots of 2^bits bytes may be blocks of the region: those of 512 GB never are.
fn allows_blocks(region: &Region, bits: u32) -> bool {
    bits < 39 && !region.has(COMM_REGION | NO_HUGEPAGES) && (region.phys ^ region.virt).trailing_zeros() >= bits
}

/// The slots at the ends of a range that it meets in part.
fn slots_in_part((first, last): (u64, u64), bits: u32) -> impl Iterator<Item = u64> {
    let begin = (first.trailing_zeros() < bits).then_some(first >> bits);
    let end = ((last + 1).trailing_zeros() < bits).then_some(last >> bits);
    begin.into_iter().chain(end)
}

/// How many slots of 2^bits bytes are tables, where the places of `cuts` aren't root's alone.
fn table_slots(regions: &[Region], cuts: &[(u64, u64)], bits: u32) -> u64 {
    let mut mapped: Vec<&Region> = regions.iter().filter(|r| r.size > 0 && r.is_page_mapped()).collect();
    let mut slots = Vec::new();
    for region in &mapped {
        let (first, last) = region.addresses();
        if allows_blocks(region, bits) {
            slots.extend(slots_in_part((first, last), bits));
        } else {
            slots.extend(first >> bits..=last >> bits);
        }
    }
    if !cuts.is_empty() {
        mapped.sort_by_key(|region| region.virt);
        let mut cut: Vec<u64> = cuts.iter().flat_map(|&range| slots_in_part(range, bits)).collect();
        cut.sort();
        cut.dedup();
        slots.extend(cut.into_iter().filter(|number| {
            let (first, end) = (number << bits, (number + 1) << bits);
            let place = mapped.partition_point(|region| region.addresses().1 < first);
            mapped.get(place).is_some_and(|region| region.virt < end)
        }));
    }
    slots.sort();
    slots.dedup();
    slots.len() as u64
}

fn tables(regions: &[Region], cuts: &[(u64, u64)]) -> u64 {
    1 + [39, 30, 21].into_iter().map(|bits| table_slots(regions, cuts, bits)).sum::<u64>()
}

fn unshared_places(cell: &CellConfig) -> impl Iterator<Item = (u64, u64)> + '_ {
    cell.regions.iter().filter(|region| region.size > 0 && region.is_unshared()).map(Region::places)
}

// ---------------------------------------------------------------------------------------------------------
// JSON

enum Json {
    Null,
    Bool,
    Whole(u64),
    Other,
    Text(String),
    List(Vec<Json>),
    Object(HashMap<String, Json>),
}

struct JsonReader<'a> {
    text: &'a [u8],
    at: usize,
    depth: u32,
}

impl JsonReader<'_> {
    fn read(text: &[u8]) -> Option<Json> {
        let mut reader = JsonReader { text, at: 0, depth: 128 };
        let value = reader.value()?;
        reader.skip();
        (reader.at == text.len()).then_some(value)
    }

    fn peek(&self) -> Option<u8> {
        self.text.get(self.at).copied()
    }

    fn skip(&mut self) {
        while matches!(self.peek(), Some(b' ' | b'\n' | b'\r' | b'\t')) {
            self.at += 1;
        }
    }

    fn take(&mut self, byte: u8) -> bool {
        let is_there = self.peek() == Some(byte);
        self.at += is_there as usize;
        is_there
    }

    fn word(&mut self, word: &str, value: Json) -> Option<Json> {
        let is_there = self.text[self.at..].starts_with(word.as_bytes());
        self.at += word.len();
        is_there.then_some(value)
    }

    fn value(&mut self) -> Option<Json> {
        self.skip();
        match self.peek()? {
            b'n' => self.word("null", Json::Null),
            b't' => self.word("true", Json::Bool),
            b'f' => self.word("false", Json::Bool),
            b'"' => self.string().map(Json::Text),
            b'[' => self.nested(Self::list),
            b'{' => self.nested(Self::object),
            _ => self.number(),
        }
    }

    fn nested(&mut self, inner: fn(&mut Self) -> Option<Json>) -> Option<Json> {
        self.depth -= 1;
        if self.depth == 0 {
            return None;
        }
        self.at += 1;
        let value = inner(self);
        self.depth += 1;
        value
    }

    fn list(&mut self) -> Option<Json> {
        let mut items = Vec::new();
        self.skip();
        if self.take(b']') {
            return Some(Json::List(items));
        }
        loop {
            items.push(self.value()?);
            self.skip();
            if self.take(b']') {
                return Some(Json::List(items));
            }
            self.take(b',').then_some(())?;
        }
    }

    fn object(&mut self) -> Option<Json> {
        let mut members = HashMap::new();
        self.skip();
        if self.take(b'}') {
            return Some(Json::Object(members));
        }
        loop {
            self.skip();
            let name = self.string()?;
            self.skip();
            self.take(b':').then_some(())?;
            members.insert(name, self.value()?);
            self.skip();
            if self.take(b'}') {
                return Some(Json::Object(members));
            }
            self.take(b',').then_some(())?;
        }
    }

    fn digits(&mut self) -> Option<()> {
        let from = self.at;
        while self.peek().is_some_and(|byte| byte.is_ascii_digit()) {
            self.at += 1;
        }
        (self.at > from).then_some(())
    }

    fn number(&mut self) -> Option<Json> {
        let from = self.at;
        let is_negative = self.take(b'-');
        if !self.take(b'0') {
            self.digits()?;
        }
        let mut is_whole = !is_negative;
        if self.take(b'.') {
            is_whole = false;
            self.digits()?;
        }
        if self.take(b'e') || self.take(b'E') {
            is_whole = false;
            let _sign = self.take(b'+') || self.take(b'-');
            self.digits()?;
        }
        let text = std::str::from_utf8(&self.text[from..self.at]).ok()?;
        match text.parse() {
            Ok(number) if is_whole => Some(Json::Whole(number)),
            _ => text.parse::<f64>().ok()?.is_finite().then_some(Json::Other),
        }
    }

    fn hex4(&mut self) -> Option<u32> {
        let digits = self.text.get(self.at..self.at + 4)?;
        self.at += 4;
        digits.iter().try_fold(0, |sum, &byte| Some(16 * sum + (byte as char).to_digit(16)?))
    }

    fn escape(&mut self) -> Option<char> {
        self.at += 1;
        let byte = self.text.get(self.at - 1)?;
        Some(match byte {
            b'"' | b'\\' | b'/' => *byte as char,
            b'b' => '\u{8}',
            b'f' => '\u{c}',
            b'n' => '\n',
            b'r' => '\r',
            b't' => '\t',
            b'u' => {
                let high = self.hex4()?;
                if !(0xd800..0xdc00).contains(&high) {
                    return char::from_u32(high);
                }
                (self.take(b'\\') && self.take(b'u')).then_some(())?;
                let low = self.hex4()?.checked_sub(0xdc00).filter(|low| *low < 0x400)?;
                char::from_u32(0x10000 + ((high - 0xd800) << 10) + low)?
            }
            _ => return None,
        })
    }

    fn string(&mut self) -> Option<String> {
        self.take(b'"').then_some(())?;
        let mut text = Vec::new();
        loop {
            let byte = self.peek()?;
            self.at += 1;
            match byte {
                b'"' => return String::from_utf8(text).ok(),
                b'\\' => text.extend(self.escape()?.to_string().bytes()),
                0..0x20 => return None,
                _ => text.push(byte),
            }
        }
    }
}

impl Json {
    fn text(&self) -> Option<&str> {
        match self {
            Json::Text(text) => Some(text),
            _ => None,
        }
    }

    fn whole(&self) -> Option<u64> {
        match self {
            Json::Whole(number) => Some(*number),
            _ => None,
        }
    }

    /// The items of a list of at most so many, each an object with exactly these members.
    fn entries(&self, most: usize, names: &[&str]) -> Option<Vec<&HashMap<String, Json>>> {
        let Json::List(items) = self else { return None };
        if items.len() > most {
            return None;
        }
        items
            .iter()
            .map(|item| match item {
                Json::Object(members) if members.len() == names.len() => {
                    names.iter().all(|name| members.contains_key(*name)).then_some(members)
                }
                _ => None,
            })
            .collect()
    }
}

// ---------------------------------------------------------------------------------------------------------
// Files

enum Stop {
    ReadFault(String),
    Refused(String, String),
}

fn refused<T>(name: &str, words: impl Display) -> Result<T, Stop> {
    Err(Stop::Refused(name.to_string(), words.to_string()))
}

fn read_file(name: &str, most: usize) -> Result<Vec<u8>, Stop> {
    let mut bytes = Vec::new();
    let read = File::open(name).and_then(|file| {
        let size = file.metadata().map_or(0, |told| told.len() as usize);
        bytes.reserve(size.min(most) + 1);
        file.take(most as u64 + 1).read_to_end(&mut bytes)
    });
    if read.is_err() {
        return Err(Stop::ReadFault(name.to_string()));
    }
    if bytes.len() > most {
        return refused(name, "oversize");
    }
    Ok(bytes)
}

// ---------------------------------------------------------------------------------------------------------
// Programs and schedules

#[derive(Clone, Copy, Debug)]
enum Op {
    Read { width: u8, at: u64 },
    Write { width: u8, at: u64, value: u64 },
    Fetch { at: u64 },
    Await { width: u8, at: u64, value: u64 },
    Irq,
    Hvc { code: u64, a: u64, b: u64 },
}

fn decimal(word: &[u8]) -> Option<u64> {
    if word.is_empty() || word[0] == b'0' && word.len() > 1 {
        return None;
    }
    word.iter().try_fold(0u64, |sum, byte| {
        let digit = byte.is_ascii_digit().then(|| byte - b'0')?;
        sum.checked_mul(10)?.checked_add(digit as u64)
    })
}

fn number(word: &[u8]) -> Option<u64> {
    match word.strip_prefix(b"0x") {
        Some(digits) if (1..=16).contains(&digits.len()) => digits
            .iter()
            .try_fold(0u64, |sum, &byte| Some(sum << 4 | (byte as char).to_digit(16)? as u64)),
        Some(_) => None,
        None => decimal(word),
    }
}

fn fits(value: u64, width: u8) -> bool {
    width == 8 || value >> (8 * width) == 0
}

fn is_width(width: u64) -> bool {
    matches!(width, 1 | 2 | 4 | 8)
}

/// Reads the words of one operation: None is a fault of syntax, Some(None) one of width.
fn read_op(words: &[&[u8]]) -> Option<Option<Op>> {
    let (word, rest) = words.split_first()?;
    let numbers: Vec<u64> = rest.iter().map(|word| number(word)).collect::<Option<_>>()?;
    Some(match (*word, &numbers[..]) {
        (b"read", &[w, at]) => is_width(w).then_some(Op::Read { width: w as u8, at }),
        (b"write", &[w, at, value]) => {
            (is_width(w) && fits(value, w as u8)).then_some(Op::Write { width: w as u8, at, value })
        }
        (b"await", &[w, at, value]) => {
            (is_width(w) && fits(value, w as u8)).then_some(Op::Await { width: w as u8, at, value })
        }
        (b"fetch", &[at]) => (at % 4 == 0).then_some(Op::Fetch { at }),
        (b"irq", &[]) => Some(Op::Irq),
        (b"hvc", &[code, a, b]) => Some(Op::Hvc { code, a, b }),
        _ => return None,
    })
}

fn read_program(text: &[u8]) -> Result<Vec<Op>, String> {
    let mut ops = Vec::new();
    let mut words = Vec::new();
    for (i, line) in text.split_inclusive(|&byte| byte == b'\n').enumerate() {
        let line = line.strip_suffix(b"\n").map_or(line, |line| line.strip_suffix(b"\r").unwrap_or(line));
        words.clear();
        words.extend(line.split(|&byte| byte == b' ' || byte == b'\t').filter(|word| !word.is_empty()));
        if !line.is_ascii() {
            return Err(format!("line {}: syntax", i + 1));
        }
        if words.first().is_none_or(|word| word[0] == b'#') {
            continue;
        }
        match read_op(&words) {
            None => return Err(format!("line {}: syntax", i + 1)),
            Some(None) => return Err(format!("line {}: width", i + 1)),
            Some(Some(_)) if ops.len() == MAX_OPS => return Err("program too long".to_string()),
            Some(Some(op)) => ops.push(op),
        }
    }
    Ok(ops)
}

fn read_schedule(text: &[u8], is_cpu: impl Fn(u64) -> bool) -> Result<Vec<u8>, String> {
    let mut items = Vec::new();
    let words = text.split(|byte| matches!(byte, b' ' | b'\t' | b'\n' | b'\r')).filter(|word| !word.is_empty());
    for word in words {
        if items.len() == MAX_ITEMS {
            return Err("schedule too long".to_string());
        }
        match decimal(word).filter(|&cpu| is_cpu(cpu)) {
            Some(cpu) => items.push(cpu as u8),
            None => return Err(format!("item {}", items.len() + 1)),
        }
    }
    Ok(items)
}

// ---------------------------------------------------------------------------------------------------------
// The image

struct Program {
    cell: String,
    cpu: u8,
    ops: Vec<Op>,
}

struct Image {
    system: SystemConfig,
    preloads: Vec<(u64, Vec<u8>)>,
    programs: Vec<Program>,
}

struct Listing {
    system: String,
    preloads: Vec<(String, u64)>,
    programs: Vec<(String, u8, String)>,
}

fn is_name(name: &str) -> bool {
    (1..=31).contains(&name.len()) && name.bytes().all(|byte| (0x20..=0x7e).contains(&byte))
}

fn read_preloads(value: Option<&Json>) -> Option<Vec<(String, u64)>> {
    let Some(value) = value else { return Some(Vec::new()) };
    let entries = value.entries(64, &["file", "at"])?;
    entries.iter().map(|entry| Some((entry["file"].text()?.to_string(), entry["at"].whole()?))).collect()
}

fn read_programs(value: Option<&Json>) -> Option<Vec<(String, u8, String)>> {
    let Some(value) = value else { return Some(Vec::new()) };
    let entries = value.entries(256, &["cell", "cpu", "file"])?;
    let mut programs: Vec<(String, u8, String)> = Vec::new();
    for entry in entries {
        let cell = entry["cell"].text().filter(|name| is_name(name))?;
        let cpu = entry["cpu"].whole().filter(|&cpu| cpu < 16)? as u8;
        if programs.iter().any(|(other, its, _)| other == cell && *its == cpu) {
            return None;
        }
        programs.push((cell.to_string(), cpu, entry["file"].text()?.to_string()));
    }
    Some(programs)
}

fn read_listing(name: &str, text: &[u8]) -> Result<Listing, Stop> {
    let Some(Json::Object(members)) = JsonReader::read(text) else { return refused(name, "json") };
    let Some(system) = members.get("system").and_then(Json::text) else { return refused(name, "member system") };
    let Some(preloads) = read_preloads(members.get("preloads")) else { return refused(name, "member preloads") };
    let Some(programs) = read_programs(members.get("programs")) else { return refused(name, "member programs") };
    let unlisted = members.keys().filter(|name| !["system", "preloads", "programs"].contains(&name.as_str())).min();
    match unlisted {
        Some(member) => refused(name, format_args!("member {member}")),
        None => Ok(Listing { system: system.to_string(), preloads, programs }),
    }
}

fn read_system_of(board: &str, name: &str) -> Result<SystemConfig, Stop> {
    let system = read_system(&read_file(name, FILE_LIMIT)?).or_else(|fault| refused(name, fault))?;
    let findings = check(&system, &[]);
    if !findings.is_empty() {
        return refused(name, format_args!("findings {}", findings.len()));
    }
    let need = tables(&system.root.regions, &[]);
    let have = system.hypervisor.size / PAGE;
    if need > have {
        return refused(board, format_args!("pool {need} {have}"));
    }
    Ok(system)
}

fn is_preload_good(system: &SystemConfig, before: &[(u64, Vec<u8>)], at: u64, bytes: &[u8]) -> bool {
    let length = bytes.len() as u64;
    if at > ADDRESS_END || length > ADDRESS_END - at {
        return false;
    }
    if length == 0 {
        return true;
    }
    let range = (at, at + length - 1);
    let mut taken = before.iter().filter(|(_, other)| !other.is_empty());
    hypervisor_places(system).is_none_or(|h| !meets(range, h))
        && taken.all(|(start, other)| !meets(range, (*start, start + other.len() as u64 - 1)))
}

fn read_image(board: &str) -> Result<Image, Stop> {
    let listing = read_listing(board, &read_file(board, FILE_LIMIT)?)?;
    let system = read_system_of(board, &listing.system)?;
    let mut preloads = Vec::new();
    for (n, (file, at)) in listing.preloads.into_iter().enumerate() {
        let bytes = read_file(&file, FILE_LIMIT)?;
        if !is_preload_good(&system, &preloads, at, &bytes) {
            return refused(board, format_args!("preload {n}"));
        }
        preloads.push((at, bytes));
    }
    let mut programs = Vec::new();
    for (cell, cpu, file) in listing.programs {
        let ops = read_program(&read_file(&file, FILE_LIMIT)?).or_else(|fault| refused(&file, fault))?;
        programs.push(Program { cell, cpu, ops });
    }
    Ok(Image { system, preloads, programs })
}

// ---------------------------------------------------------------------------------------------------------
// Journals

/// The first line of a journal of form Two.
const HEADER: &str = "jailhouse journal 2\n";

/// In form One a start runs all CPUs of its cell, and cells can't switch theirs on and off.
#[derive(Clone, Copy, PartialEq, Debug)]
enum Form {
    One,
    Two,
}

impl Form {
    fn header(self) -> &'static str {
        match self {
            Form::One => "",
            Form::Two => HEADER,
        }
    }

    /// The line of an entry by its number, both from 1.
    fn line(self, entry: usize) -> usize {
        entry + self.header().lines().count()
    }
}

#[derive(Clone, Copy, PartialEq, Debug)]
enum Settled {
    Agreed,
    Denied,
    Timeout,
}

#[derive(Clone, Copy, PartialEq, Debug)]
enum Heard {
    Received,
    Down,
    Other,
    Timeout,
}

#[derive(Clone, Copy, PartialEq, Debug)]
enum Act {
    Read { width: u8, at: u64, got: Option<u64> },
    Write { width: u8, at: u64, value: u64, ok: bool },
    Fetch { at: u64, got: Option<u64> },
    Await { width: u8, at: u64, value: u64, ok: bool },
    Irq { device: u32, vector: u8 },
    Hvc { code: u64, a: u64, b: u64, answer: i64 },
    Begin { code: u64, a: u64, b: u64 },
    Stop,
    Decide { refused: Option<i64> },
    Settle { how: Settled },
    Commit,
    Note { id: u32 },
    Noted { id: u32, how: Heard },
    Finish { answer: i64 },
}

#[derive(Clone, Copy, PartialEq, Debug)]
struct Entry {
    cpu: u8,
    cell: u32,
    act: Act,
}

struct Got(Option<u64>);

impl Display for Got {
    fn fmt(&self, f: &mut fmt::Formatter) -> fmt::Result {
        match self.0 {
            Some(value) => write!(f, "{value:#x}"),
            None => f.write_str("violation"),
        }
    }
}

fn ok_word(ok: bool) -> &'static str {
    if ok { "ok" } else { "violation" }
}

impl Display for Entry {
    fn fmt(&self, f: &mut fmt::Formatter) -> fmt::Result {
        write!(f, "{} {} ", self.cpu, self.cell)?;
        match self.act {
            Act::Read { width, at, got } => write!(f, "read {width} {at:#x} = {}", Got(got)),
            Act::Write { width, at, value, ok } => write!(f, "write {width} {at:#x} {value:#x} = {}", ok_word(ok)),
            Act::Fetch { at, got } => write!(f, "fetch {at:#x} = {}", Got(got)),
            Act::Await { width, at, value, ok } => write!(f, "await {width} {at:#x} {value:#x} = {}", ok_word(ok)),
            Act::Irq { device, vector } => write!(f, "irq = {device} {vector}"),
            Act::Hvc { code, a, b, answer } => write!(f, "hvc {code} {a:#x} {b:#x} = {answer}"),
            Act::Begin { code, a, b } => write!(f, "hvc {code} {a:#x} {b:#x} = begin"),
            Act::Stop => f.write_str("stop"),
            Act::Decide { refused: None } => f.write_str("decide = go"),
            Act::Decide { refused: Some(answer) } => write!(f, "decide = {answer}"),
            Act::Settle { how: Settled::Agreed } => f.write_str("settle = agreed"),
            Act::Settle { how: Settled::Denied } => f.write_str("settle = denied"),
            Act::Settle { how: Settled::Timeout } => f.write_str("settle = timeout"),
            Act::Commit => f.write_str("commit"),
            Act::Note { id } => write!(f, "note {id}"),
            Act::Noted { id, how: Heard::Received } => write!(f, "noted {id} = received"),
            Act::Noted { id, how: Heard::Down } => write!(f, "noted {id} = down"),
            Act::Noted { id, how: Heard::Other } => write!(f, "noted {id} = other"),
            Act::Noted { id, how: Heard::Timeout } => write!(f, "noted {id} = timeout"),
            Act::Finish { answer } => write!(f, "finish = {answer}"),
        }
    }
}

fn print_journal(form: Form, entries: &[Entry]) -> String {
    let mut text = String::with_capacity(32 * (entries.len() + 1));
    text.push_str(form.header());
    for entry in entries {
        let _ = writeln!(text, "{entry}");
    }
    text
}

fn hex(word: &[u8]) -> Option<u64> {
    let digits = word.strip_prefix(b"0x")?;
    if digits.is_empty() || digits.len() > 16 || digits[0] == b'0' && digits.len() > 1 {
        return None;
    }
    digits.iter().try_fold(0u64, |sum, byte| {
        let digit = match byte {
            b'0'..=b'9' => byte - b'0',
            b'a'..=b'f' => byte - b'a' + 10,
            _ => return None,
        };
        Some(sum << 4 | digit as u64)
    })
}

fn below(word: &[u8], end: u64) -> Option<u64> {
    decimal(word).filter(|&number| number < end)
}

fn id_of(word: &[u8]) -> Option<u32> {
    below(word, 1 << 32).map(|number| number as u32)
}

fn signed(word: &[u8]) -> Option<i64> {
    match word.strip_prefix(b"-") {
        Some(digits) => decimal(digits).filter(|&size| size > 0).and_then(|size| 0i64.checked_sub_unsigned(size)),
        None => decimal(word).and_then(|number| number.try_into().ok()),
    }
}

fn width_of(word: &[u8]) -> Option<u8> {
    match word {
        b"1" => Some(1),
        b"2" => Some(2),
        b"4" => Some(4),
        b"8" => Some(8),
        _ => None,
    }
}

fn value_of(word: &[u8], width: u8) -> Option<u64> {
    hex(word).filter(|&value| fits(value, width))
}

fn got_of(word: &[u8], width: u8) -> Option<Option<u64>> {
    if word == b"violation" { Some(None) } else { value_of(word, width).map(Some) }
}

fn ok_of(word: &[u8]) -> Option<bool> {
    match word {
        b"ok" => Some(true),
        b"violation" => Some(false),
        _ => None,
    }
}

fn read_hvc(code: &[u8], a: &[u8], b: &[u8], end: &[u8]) -> Option<Act> {
    let (code, a, b) = (decimal(code)?, hex(a)?, hex(b)?);
    Some(if end == b"begin" { Act::Begin { code, a, b } } else { Act::Hvc { code, a, b, answer: signed(end)? } })
}

fn read_act(words: &[&[u8]]) -> Option<Act> {
    Some(match words {
        [b"read", w, at, b"=", got] => {
            let width = width_of(w)?;
            Act::Read { width, at: hex(at)?, got: got_of(got, width)? }
        }
        [b"write", w, at, value, b"=", ok] => {
            let width = width_of(w)?;
            Act::Write { width, at: hex(at)?, value: value_of(value, width)?, ok: ok_of(ok)? }
        }
        [b"fetch", at, b"=", got] => Act::Fetch { at: hex(at)?, got: got_of(got, 4)? },
        [b"await", w, at, value, b"=", ok] => {
            let width = width_of(w)?;
            Act::Await { width, at: hex(at)?, value: value_of(value, width)?, ok: ok_of(ok)? }
        }
        [b"irq", b"=", device, vector] => Act::Irq { device: id_of(device)?, vector: below(vector, 256)? as u8 },
        [b"hvc", code, a, b, b"=", end] => read_hvc(code, a, b, end)?,
        [b"stop"] => Act::Stop,
        [b"decide", b"=", b"go"] => Act::Decide { refused: None },
        [b"decide", b"=", answer] => Act::Decide { refused: Some(signed(answer)?) },
        [b"settle", b"=", b"agreed"] => Act::Settle { how: Settled::Agreed },
        [b"settle", b"=", b"denied"] => Act::Settle { how: Settled::Denied },
        [b"settle", b"=", b"timeout"] => Act::Settle { how: Settled::Timeout },
        [b"commit"] => Act::Commit,
        [b"note", id] => Act::Note { id: id_of(id)? },
        [b"noted", id, b"=", how] => {
            let how = match *how {
                b"received" => Heard::Received,
                b"down" => Heard::Down,
                b"other" => Heard::Other,
                b"timeout" => Heard::Timeout,
                _ => return None,
            };
            Act::Noted { id: id_of(id)?, how }
        }
        [b"finish", b"=", answer] => Act::Finish { answer: signed(answer)? },
        _ => return None,
    })
}

fn read_journal(text: &[u8]) -> Result<(Form, Vec<Entry>), String> {
    let (form, body) = match text.strip_prefix(HEADER.as_bytes()) {
        Some(body) => (Form::Two, body),
        None => (Form::One, text),
    };
    let mut entries = Vec::new();
    let mut words: Vec<&[u8]> = Vec::new();
    for line in body.split_inclusive(|&byte| byte == b'\n') {
        words.clear();
        let entry = line.strip_suffix(b"\n").and_then(|line| {
            words.extend(line.split(|&byte| byte == b' '));
            let [cpu, cell, act @ ..] = &words[..] else { return None };
            Some(Entry { cpu: below(cpu, 16)? as u8, cell: id_of(cell)?, act: read_act(act)? })
        });
        match entry {
            None => return Err(format!("line {}", form.line(entries.len() + 1))),
            Some(_) if entries.len() == MAX_ENTRIES => return Err("journal too long".to_string()),
            Some(entry) => entries.push(entry),
        }
    }
    Ok((form, entries))
}

// ---------------------------------------------------------------------------------------------------------
// Memory

#[derive(Default)]
struct Memory(HashMap<u64, Box<[u8]>>);

impl Memory {
    fn page(&mut self, number: u64) -> &mut [u8] {
        self.0.entry(number).or_insert_with(|| vec![0; PAGE as usize].into_boxed_slice())
    }

    fn read(&self, mut at: u64, mut bytes: &mut [u8]) {
        while !bytes.is_empty() {
            let offset = (at % PAGE) as usize;
            let (now, rest) = bytes.split_at_mut((PAGE as usize - offset).min(bytes.len()));
            match self.0.get(&(at / PAGE)) {
                Some(page) => now.copy_from_slice(&page[offset..offset + now.len()]),
                None => now.fill(0),
            }
            at += now.len() as u64;
            bytes = rest;
        }
    }

    fn write(&mut self, mut at: u64, mut bytes: &[u8]) {
        while !bytes.is_empty() {
            let offset = (at % PAGE) as usize;
            let (now, rest) = bytes.split_at((PAGE as usize - offset).min(bytes.len()));
            self.page(at / PAGE)[offset..offset + now.len()].copy_from_slice(now);
            at += now.len() as u64;
            bytes = rest;
        }
    }
}

// ---------------------------------------------------------------------------------------------------------
// Devices

const COMMAND_WINDOWS: u16 = 1 << 1;
const COMMAND_MASTER: u16 = 1 << 2;
const COMMAND_BITS: u16 = COMMAND_WINDOWS | COMMAND_MASTER | 1 << 10;
const MSIX_MASK: u16 = 1 << 14;
const MSIX_ENABLE: u16 = 1 << 15;

struct Endpoint {
    device: u32,
    bdf: u16,
    id: u8,
    peers: u8,
    vectors: u16,
    protocol: u16,
    /// The place of the endpoint's word in the state table.
    slot: u64,
    state_size: u32,
    rw_size: u64,
    out_size: u64,
    address: u64,
    registers: Registers,
}

#[derive(Clone)]
struct Registers {
    command: u16,
    bars: [u32; 2],
    one_shot: bool,
    msix: u16,
    interrupts: bool,
    state: u32,
    words: [[u32; 4]; 16],
    pending: u16,
}

impl Registers {
    fn fresh() -> Registers {
        Registers {
            command: 0,
            bars: [0; 2],
            one_shot: false,
            msix: 0,
            interrupts: false,
            state: 0,
            words: [[0, 0, 0, 1]; 16],
            pending: 0,
        }
    }
}

impl Endpoint {
    fn new(cell: &CellConfig, number: usize, device: &Device) -> Endpoint {
        let first = device.first_region as usize;
        let (table, rw, out) = (&cell.regions[first], &cell.regions[first + 1], &cell.regions[first + 2]);
        Endpoint {
            device: number as u32,
            bdf: device.bdf,
            id: device.id,
            peers: device.peers,
            vectors: device.vectors,
            protocol: device.protocol,
            slot: table.phys + 4 * device.id as u64,
            state_size: table.size as u32,
            rw_size: rw.size,
            out_size: out.size,
            address: table.virt,
            registers: Registers::fresh(),
        }
    }

    fn has_msix(&self) -> bool {
        self.vectors > 0
    }

    fn config_word(&self, at: u64) -> u32 {
        let msix = self.has_msix();
        let kept = &self.registers;
        match at {
            0x00 => 0x4106_110a,
            0x04 => 0x0010_0000 | kept.command as u32,
            0x08 => 0xff00_0000 | (self.protocol as u32) << 8,
            0x10 => kept.bars[0],
            0x14 => kept.bars[1],
            0x34 => 0x40,
            0x3c => (!msix as u32) << 8,
            0x40 => 0x0020_0009 | if msix { 0x6000 } else { 0 } | (kept.one_shot as u32) << 24,
            0x44 => self.state_size,
            0x48 => self.rw_size as u32,
            0x4c => (self.rw_size >> 32) as u32,
            0x50 => self.out_size as u32,
            0x54 => (self.out_size >> 32) as u32,
            0x58 => self.address as u32,
            0x5c => (self.address >> 32) as u32,
            0x60 if msix => 0x11 | (self.vectors as u32 - 1 | kept.msix as u32) << 16,
            0x64 if msix => 0x1,
            0x68 if msix => 0x101,
            _ => 0,
        }
    }

    fn read_config(&self, at: u64, width: u8) -> u64 {
        let word = self.config_word(at & !3) >> (8 * (at % 4));
        word as u64 & low_bits(width)
    }

    fn write_config(&mut self, at: u64, width: u8, value: u64) {
        let shift = 8 * (at % 4);
        let mask = (low_bits(width) << shift) as u32;
        let word = self.config_word(at & !3) & !mask | (value << shift) as u32 & mask;
        let msix = self.has_msix();
        let kept = &mut self.registers;
        match at & !3 {
            0x04 => kept.command = word as u16 & COMMAND_BITS,
            0x10 => kept.bars[0] = word & 0xffff_f000,
            0x14 if msix => kept.bars[1] = word & 0xffff_fe00,
            0x40 => kept.one_shot = word >> 24 & 1 == 1,
            0x60 if msix => kept.msix = (word >> 16) as u16 & (MSIX_MASK | MSIX_ENABLE),
            _ => {}
        }
    }

    /// The BAR and the offset of an access that lies wholly in an enabled window, with where it begins.
    fn window_of(&self, at: u64, width: u64) -> Option<(u8, u64)> {
        if self.registers.command & COMMAND_WINDOWS == 0 {
            return None;
        }
        let lies_in = |bar: u8, size: u64| {
            let offset = at.checked_sub(self.registers.bars[bar as usize] as u64)?;
            (offset < size && width <= size - offset).then_some((bar, offset))
        };
        lies_in(0, 4096).or_else(|| if self.has_msix() { lies_in(1, 512) } else { None })
    }

    fn vector_word(&self, at: u64) -> Option<(usize, usize)> {
        (at / 16 < self.vectors as u64).then_some(((at / 16) as usize, (at % 16 / 4) as usize))
    }

    fn read_register(&self, bar: u8, at: u64) -> u32 {
        match (bar, at) {
            (0, 0x00) => self.id as u32,
            (0, 0x04) => self.peers as u32,
            (0, 0x08) => self.registers.interrupts as u32,
            (0, 0x10) => self.registers.state,
            (1, _) => self.vector_word(at).map_or(0, |(vector, word)| self.registers.words[vector][word]),
            _ => 0,
        }
    }

    fn is_open(&self, vector: u32) -> bool {
        let kept = &self.registers;
        if !self.has_msix() {
            return kept.interrupts && vector == 0;
        }
        kept.interrupts
            && vector < self.vectors as u32
            && kept.command & COMMAND_MASTER != 0
            && kept.msix & (MSIX_MASK | MSIX_ENABLE) == MSIX_ENABLE
            && kept.words[vector as usize][3] & 1 == 0
    }

    fn raise(&mut self, vector: u32) {
        if self.is_open(vector) {
            self.registers.pending |= 1 << vector;
            if self.registers.one_shot {
                self.registers.interrupts = false;
            }
        }
    }
}

fn low_bits(width: u8) -> u64 {
    if width == 8 { u64::MAX } else { (1 << (8 * width)) - 1 }
}

// ---------------------------------------------------------------------------------------------------------
// Cells and CPUs

const RUNNING: u32 = 0;
const RUNNING_LOCKED: u32 = 1;
const SHUT_DOWN: u32 = 2;
const FAILED: u32 = 3;
const SHUTDOWN_REQUEST: u32 = 1;
const RECONFIG_COMPLETED: u32 = 2;
const REQUEST_APPROVED: u32 = 3;
const RECEIVED: u32 = 4;

const EPERM: i64 = -1;
const ENOENT: i64 = -2;
const E2BIG: i64 = -7;
const ENOMEM: i64 = -12;
const EBUSY: i64 = -16;
const EEXIST: i64 = -17;
const EINVAL: i64 = -22;
const ENOSYS: i64 = -38;

struct Cell {
    config: CellConfig,
    /// The numbers of its regions that aren't empty, by their addresses.
    by_address: Vec<usize>,
    /// Its places in order.
    places: Vec<Span>,
    endpoints: Vec<Endpoint>,
    functions: HashMap<u16, usize>,
    page: Box<[u8]>,
    loadable: bool,
    tables: u64,
}

impl Cell {
    fn new(config: CellConfig) -> Cell {
        let regions = &config.regions;
        let mut by_address: Vec<usize> = (0..regions.len()).filter(|&r| regions[r].size > 0).collect();
        by_address.sort_by_key(|&r| regions[r].virt);
        let endpoints: Vec<_> = config.shmem_devices().map(|(d, device)| Endpoint::new(&config, d, device)).collect();
        Cell {
            by_address,
            places: sorted_places(&config),
            functions: endpoints.iter().enumerate().map(|(i, endpoint)| (endpoint.bdf, i)).collect(),
            endpoints,
            page: vec![0; PAGE as usize].into_boxed_slice(),
            loadable: false,
            tables: tables(&config.regions, &[]),
            config,
        }
    }

    fn region_at(&self, at: u64) -> Option<&Region> {
        let regions = &self.config.regions;
        let place = self.by_address.partition_point(|&r| regions[r].virt <= at);
        let region = &regions[self.by_address[place.checked_sub(1)?]];
        (at - region.virt < region.size).then_some(region)
    }

    fn word(&self, at: usize) -> u32 {
        u32_at(&self.page, at)
    }

    fn set_word(&mut self, at: usize, value: u32) {
        self.page[at..at + 4].copy_from_slice(&value.to_le_bytes());
    }

    fn state(&self) -> u32 {
        self.word(8)
    }

    fn set_state(&mut self, state: u32) {
        self.set_word(8, state);
    }

    fn reply(&self) -> u32 {
        self.word(16)
    }

    fn send(&mut self, message: u32) {
        self.set_word(16, 0);
        self.set_word(12, message);
    }

    fn freshen(&mut self, state: u32, ecam_base: u64) {
        self.page.fill(0);
        self.page[..6].copy_from_slice(b"JHCOMM");
        self.page[6] = 1;
        self.set_state(state);
        self.page[24..56].copy_from_slice(&self.config.console);
        self.page[56..64].copy_from_slice(&ecam_base.to_le_bytes());
    }

    fn closes(&self, region: &Region) -> bool {
        region.is_unshared() && !(self.loadable && region.has(LOADABLE))
    }
}

#[derive(Clone, Copy, PartialEq)]
enum Mode {
    Running,
    Parked,
    Failed,
}

struct Cpu {
    owner: u32,
    mode: Mode,
    asked: bool,
    stopped: bool,
    position: usize,
    program: Option<usize>,
    root_position: usize,
    root_failed: bool,
}

impl Cpu {
    fn park(&mut self) {
        self.mode = Mode::Parked;
        self.stopped = false;
    }

    fn restart(&mut self) {
        self.mode = Mode::Running;
        self.stopped = false;
        self.position = 0;
    }
}

// ---------------------------------------------------------------------------------------------------------
// The board

enum Phase {
    Decide,
    Settle,
    Commit,
    Create(Box<Cell>),
    Note(u32),
    Noted(u32),
    Finish,
}

struct Call {
    caller: u8,
    code: u64,
    a: u64,
    phase: Phase,
    /// How many entries the cell that was asked has made since.
    waited: u64,
    answer: i64,
}

impl Call {
    /// The cell whose entries are counted.
    fn asked(&self) -> Option<u32> {
        match self.phase {
            Phase::Settle => Some(self.a as u32),
            Phase::Noted(id) => Some(id),
            _ => None,
        }
    }
}

#[derive(Clone, Copy)]
enum Place {
    Physical(u64),
    Communication(usize),
}

/// Places in a row.
#[derive(Clone, Copy)]
struct Run {
    from: Place,
    length: usize,
}

#[derive(Clone, Copy)]
enum Reach {
    Places(Run, Option<Run>),
    Config(u64),
    Register { endpoint: usize, bar: u8, at: u64 },
    Nothing,
}

enum Effect {
    Nothing,
    Write(Reach),
    Created(Box<Cell>),
}

/// The entry that is due, and what its making needs besides.
struct Step {
    entry: Entry,
    effect: Effect,
}

enum Turn {
    Made,
    Full,
    NotNow,
    Done,
}

struct Board {
    ecam: Option<(u64, u64)>,
    system: SystemConfig,
    programs: Vec<Program>,
    by_cell: HashMap<String, [Option<usize>; 16]>,
    memory: Memory,
    /// Root and then the others, in order of creation.
    cells: Vec<Cell>,
    closed: Vec<(u64, u64)>,
    cpus: [Option<Cpu>; 16],
    call: Option<Call>,
    form: Form,
    entries: Vec<Entry>,
}

impl Board {
    fn open(image: Image, form: Form) -> Board {
        let Image { system, preloads, programs } = image;
        let mut by_cell: HashMap<String, [Option<usize>; 16]> = HashMap::new();
        for (i, program) in programs.iter().enumerate() {
            by_cell.entry(program.cell.clone()).or_default()[program.cpu as usize] = Some(i);
        }
        let size = (system.end_bus as u64 + 1) << 20;
        let mut board = Board {
            ecam: (system.ecam_base != 0).then(|| (system.ecam_base, system.ecam_base.saturating_add(size))),
            programs,
            by_cell,
            memory: Memory::default(),
            cells: vec![Cell::new(system.root.clone())],
            closed: Vec::new(),
            cpus: [const { None }; 16],
            call: None,
            form,
            entries: Vec::new(),
            system,
        };
        for (at, bytes) in preloads {
            board.memory.write(at, &bytes);
        }
        board.clear_slots(0);
        let root = &board.system.root;
        let own: Vec<usize> = root.cpus().collect();
        for cpu in own {
            board.cpus[cpu] = Some(Cpu {
                owner: board.root_id(),
                mode: Mode::Running,
                asked: false,
                stopped: false,
                position: 0,
                program: board.program_of(&board.system.root.name, cpu),
                root_position: 0,
                root_failed: false,
            });
        }
        board
    }

    fn root_id(&self) -> u32 {
        self.system.root.id
    }

    fn program_of(&self, cell: &str, cpu: usize) -> Option<usize> {
        self.by_cell.get(cell).and_then(|programs| programs[cpu])
    }

    fn place_of(&self, id: u64) -> Option<usize> {
        self.cells.iter().position(|cell| cell.config.id as u64 == id)
    }

    fn clear_slots(&mut self, place: usize) {
        for endpoint in &self.cells[place].endpoints {
            self.memory.write(endpoint.slot, &[0; 4]);
        }
    }

    fn cpus_of(&mut self, id: u32) -> impl Iterator<Item = &mut Cpu> {
        self.cpus.iter_mut().flatten().filter(move |cpu| cpu.owner == id)
    }

    fn is_locked(&self, but: Option<u64>) -> bool {
        let mut others = self.cells[1..].iter().filter(|cell| Some(cell.config.id as u64) != but);
        others.any(|cell| cell.state() == RUNNING_LOCKED)
    }

    fn rebuild_closed(&mut self) {
        self.closed.clear();
        for cell in &self.cells[1..] {
            let closing = cell.places.iter().filter(|span| cell.closes(&cell.config.regions[span.region]));
            self.closed.extend(closing.map(|span| (span.first, span.last)));
        }
        self.closed.sort();
        self.closed.dedup_by(|next, kept| {
            let meet = next.0 <= kept.1;
            if meet {
                kept.1 = kept.1.max(next.1);
            }
            meet
        });
    }

    fn is_closed(&self, first: u64, length: u64) -> bool {
        let place = self.closed.partition_point(|range| range.1 < first);
        self.closed.get(place).is_some_and(|range| range.0 - first.min(range.0) < length)
    }

    // What an access reaches.

    fn reach(&self, place: usize, at: u64, width: u8, right: u64) -> Reach {
        let width = width as u64;
        if at >= ADDRESS_END || width > ADDRESS_END - at {
            return Reach::Nothing;
        }
        if let Some(reach) = self.reach_memory(place, at, width, right) {
            return reach;
        }
        if right == EXECUTE { Reach::Nothing } else { self.reach_device(place, at, width, right) }
    }

    fn run_at(&self, place: usize, at: u64, most: u64, right: u64) -> Option<Run> {
        let region = self.cells[place].region_at(at).filter(|region| region.is_page_mapped() && region.has(right))?;
        let offset = at - region.virt;
        let length = most.min(region.size - offset);
        let from = if region.has(COMM_REGION) {
            Place::Communication(offset as usize)
        } else {
            if place == 0 && self.is_closed(region.phys + offset, length) {
                return None;
            }
            Place::Physical(region.phys + offset)
        };
        Some(Run { from, length: length as usize })
    }

    fn reach_memory(&self, place: usize, at: u64, width: u64, right: u64) -> Option<Reach> {
        let first = self.run_at(place, at, width, right)?;
        let done = first.length as u64;
        if done == width {
            return Some(Reach::Places(first, None));
        }
        Some(Reach::Places(first, Some(self.run_at(place, at + done, width - done, right)?)))
    }

    fn reach_device(&self, place: usize, at: u64, width: u64, right: u64) -> Reach {
        let cell = &self.cells[place];
        let region = cell.region_at(at).filter(|region| !region.is_page_mapped() && width <= region.size - (at - region.virt));
        if let Some(region) = region {
            let from = region.phys + (at - region.virt);
            if place != 0 || !self.is_closed(from, width) {
                let allowed = region.has(IO_8 << width.trailing_zeros());
                let aligned = at % width == 0 || region.has(IO_UNALIGNED);
                let run = Run { from: Place::Physical(from), length: width as usize };
                return if region.has(right) && allowed && aligned { Reach::Places(run, None) } else { Reach::Nothing };
            }
        }
        if let Some((start, end)) = self.ecam {
            if at >= start && at < end && width <= end - at {
                let offset = at - start;
                return if width <= 4 && offset % width == 0 { Reach::Config(offset) } else { Reach::Nothing };
            }
        }
        let mut windows = cell.endpoints.iter().enumerate();
        match windows.find_map(|(i, endpoint)| endpoint.window_of(at, width).map(|(bar, at)| (i, bar, at))) {
            Some((endpoint, bar, offset)) if width == 4 && at % 4 == 0 => Reach::Register { endpoint, bar, at: offset },
            _ => Reach::Nothing,
        }
    }

    fn read_run(&self, place: usize, run: &Run, bytes: &mut [u8]) {
        match run.from {
            Place::Physical(at) => self.memory.read(at, bytes),
            Place::Communication(at) => bytes.copy_from_slice(&self.cells[place].page[at..at + bytes.len()]),
        }
    }

    fn read(&self, place: usize, reach: &Reach, width: u8) -> Option<u64> {
        match reach {
            Reach::Places(first, second) => {
                let mut bytes = [0; 8];
                self.read_run(place, first, &mut bytes[..first.length]);
                if let Some(second) = second {
                    self.read_run(place, second, &mut bytes[first.length..first.length + second.length]);
                }
                Some(u64::from_le_bytes(bytes))
            }
            Reach::Config(offset) => {
                let cell = &self.cells[place];
                let function = cell.functions.get(&((offset / PAGE) as u16));
                Some(function.map_or(low_bits(width), |&i| cell.endpoints[i].read_config(offset % PAGE, width)))
            }
            Reach::Register { endpoint, bar, at } => {
                Some(self.cells[place].endpoints[*endpoint].read_register(*bar, *at) as u64)
            }
            Reach::Nothing => None,
        }
    }

    fn write_run(&mut self, place: usize, run: &Run, bytes: &[u8]) {
        match run.from {
            Place::Physical(at) => self.memory.write(at, bytes),
            Place::Communication(at) => self.cells[place].page[at..at + bytes.len()].copy_from_slice(bytes),
        }
    }

    fn write(&mut self, place: usize, reach: &Reach, width: u8, value: u64) {
        match *reach {
            Reach::Places(first, second) => {
                let bytes = value.to_le_bytes();
                self.write_run(place, &first, &bytes[..first.length]);
                if let Some(second) = second {
                    self.write_run(place, &second, &bytes[first.length..first.length + second.length]);
                }
            }
            Reach::Config(offset) => {
                let cell = &mut self.cells[place];
                if let Some(&i) = cell.functions.get(&((offset / PAGE) as u16)) {
                    cell.endpoints[i].write_config(offset % PAGE, width, value);
                }
            }
            Reach::Register { endpoint, bar, at } => self.write_register(place, endpoint, bar, at, value as u32),
            Reach::Nothing => {}
        }
    }

    // Links.

    fn linked(&mut self, bdf: u16) -> impl Iterator<Item = (usize, &mut Endpoint)> {
        self.cells.iter_mut().enumerate().filter_map(move |(place, cell)| {
            let endpoint = *cell.functions.get(&bdf)?;
            Some((place, &mut cell.endpoints[endpoint]))
        })
    }

    fn write_register(&mut self, place: usize, number: usize, bar: u8, at: u64, value: u32) {
        let endpoint = &mut self.cells[place].endpoints[number];
        match (bar, at) {
            (0, 0x08) => endpoint.registers.interrupts = value & 1 == 1,
            (0, 0x0c) => {
                let bdf = endpoint.bdf;
                let target = self.linked(bdf).find(|(_, peer)| peer.id as u32 == value >> 16);
                if let Some((_, peer)) = target {
                    peer.raise(value & 0xffff);
                }
            }
            (0, 0x10) => {
                if endpoint.registers.state != value {
                    self.put_state(place, number, value);
                }
            }
            (1, _) => {
                if let Some((vector, word)) = endpoint.vector_word(at) {
                    endpoint.registers.words[vector][word] = if word == 3 { value & 1 } else { value };
                }
            }
            _ => {}
        }
    }

    /// Writes the state word, and raises vector 0 of the peers where the state was another.
    fn put_state(&mut self, place: usize, number: usize, value: u32) {
        let endpoint = &mut self.cells[place].endpoints[number];
        let was = std::mem::replace(&mut endpoint.registers.state, value);
        let (bdf, slot) = (endpoint.bdf, endpoint.slot);
        self.memory.write(slot, &value.to_le_bytes());
        if was != value {
            for (_, peer) in self.linked(bdf).filter(|(other, _)| *other != place) {
                peer.raise(0);
            }
        }
    }

    fn reset_devices(&mut self, place: usize) {
        for number in 0..self.cells[place].endpoints.len() {
            let kept = &mut self.cells[place].endpoints[number].registers;
            let state = kept.state;
            *kept = Registers { state, ..Registers::fresh() };
            self.put_state(place, number, 0);
        }
    }

    fn pending(&self, place: usize) -> Option<(usize, u8)> {
        let mut endpoints = self.cells[place].endpoints.iter().enumerate();
        let (i, endpoint) = endpoints.find(|(_, endpoint)| endpoint.registers.pending != 0)?;
        Some((i, endpoint.registers.pending.trailing_zeros() as u8))
    }

    // What is due.

    fn op(&self, cpu: &Cpu) -> Option<Op> {
        self.programs[cpu.program?].ops.get(cpu.position).copied()
    }

    fn is_waiting_over(&self, place: usize, width: u8, at: u64, value: u64) -> bool {
        let reach = self.reach(place, at, width, READ);
        self.read(place, &reach, width).is_none_or(|got| got == value)
    }

    /// Whether a CPU that didn't make the open call has an entry due.
    fn has_due(&self, cpu: &Cpu) -> bool {
        if cpu.asked {
            return true;
        }
        if cpu.stopped || cpu.mode != Mode::Running {
            return false;
        }
        let place = || self.place_of(cpu.owner as u64).unwrap();
        match self.op(cpu) {
            None => false,
            Some(Op::Await { width, at, value }) => self.is_waiting_over(place(), width, at, value),
            Some(Op::Irq) => self.pending(place()).is_some(),
            Some(_) => true,
        }
    }

    fn due(&self, number: u8) -> Option<Step> {
        let cpu = self.cpus[number as usize].as_ref()?;
        let step = |act, effect| Some(Step { entry: Entry { cpu: number, cell: cpu.owner, act }, effect });
        if cpu.asked {
            return step(Act::Stop, Effect::Nothing);
        }
        if cpu.stopped || cpu.mode != Mode::Running {
            return None;
        }
        if let Some(call) = self.call.as_ref().filter(|call| call.caller == number) {
            let (act, effect) = self.phase_due(call)?;
            return step(act, effect);
        }
        let op = self.op(cpu)?;
        let place = self.place_of(cpu.owner as u64)?;
        match op {
            Op::Read { width, at } => {
                let reach = self.reach(place, at, width, READ);
                step(Act::Read { width, at, got: self.read(place, &reach, width) }, Effect::Nothing)
            }
            Op::Write { width, at, value } => {
                let reach = self.reach(place, at, width, WRITE);
                let ok = !matches!(reach, Reach::Nothing);
                step(Act::Write { width, at, value, ok }, Effect::Write(reach))
            }
            Op::Fetch { at } => {
                let reach = self.reach(place, at, 4, EXECUTE);
                step(Act::Fetch { at, got: self.read(place, &reach, 4) }, Effect::Nothing)
            }
            Op::Await { width, at, value } => {
                let reach = self.reach(place, at, width, READ);
                let got = self.read(place, &reach, width);
                if got.is_some_and(|got| got != value) {
                    return None;
                }
                step(Act::Await { width, at, value, ok: got.is_some() }, Effect::Nothing)
            }
            Op::Irq => {
                let (i, vector) = self.pending(place)?;
                step(Act::Irq { device: self.cells[place].endpoints[i].device, vector }, Effect::Nothing)
            }
            Op::Hvc { code, a, b } if place == 0 && (1..=4).contains(&code) => {
                step(Act::Begin { code, a, b }, Effect::Nothing)
            }
            Op::Hvc { code, a, b } => {
                step(Act::Hvc { code, a, b, answer: self.answer(place, code, a, b) }, Effect::Nothing)
            }
        }
    }

    fn answer(&self, place: usize, code: u64, a: u64, b: u64) -> i64 {
        match code {
            1..=4 => EPERM,
            5 => match a {
                0 => self.pool() as i64,
                1 => self.pages(None) as i64,
                4 => self.cells.len() as i64,
                _ => EINVAL,
            },
            6 if place != 0 => EPERM,
            6 => match self.place_of(a) {
                None => ENOENT,
                Some(0) => 0,
                Some(place) => Some(self.cells[place].state()).filter(|state| *state <= 4).map_or(EINVAL, i64::from),
            },
            7 => match self.cpus.get(a.min(16) as usize).and_then(Option::as_ref) {
                None => EINVAL,
                Some(cpu) if place != 0 && cpu.owner != self.cells[place].config.id => EPERM,
                Some(_) if b != 0 => EINVAL,
                Some(cpu) if cpu.mode == Mode::Failed => 2,
                Some(_) => 0,
            },
            CPU_OFF | CPU_ON | AFFINITY_INFO if place != 0 && self.form == Form::Two => {
                self.answer_power(self.cells[place].config.id, code, a, b)
            }
            _ => ENOSYS,
        }
    }

    /// What a cell besides root is told that switches its CPUs.
    fn answer_power(&self, id: u32, code: u64, a: u64, b: u64) -> i64 {
        if code == CPU_OFF {
            return 0;
        }
        let named = self.cpus.get(a.min(16) as usize).and_then(Option::as_ref);
        match named.filter(|cpu| cpu.owner == id) {
            None => INVALID_PARAMETERS,
            Some(_) if code == AFFINITY_INFO && b != 0 => INVALID_PARAMETERS,
            Some(cpu) if code == AFFINITY_INFO => (cpu.mode != Mode::Running) as i64,
            Some(cpu) => match cpu.mode {
                Mode::Parked => 0,
                Mode::Running => ALREADY_ON,
                Mode::Failed => DENIED,
            },
        }
    }

    fn pool(&self) -> u64 {
        self.system.hypervisor.size / PAGE
    }

    /// The pages of all live cells, with one more.
    fn pages(&self, extra: Option<&Cell>) -> u64 {
        let others = || self.cells[1..].iter().chain(extra);
        let cuts: Vec<(u64, u64)> = others().flat_map(|cell| unshared_places(&cell.config)).collect();
        let root = tables(&self.system.root.regions, &cuts);
        root + others().map(|cell| cell.tables + 1).sum::<u64>()
    }

    // Management calls.

    fn are_stopped(&self, id: u32, but: Option<u8>) -> bool {
        let others = self.cpus.iter().enumerate().filter(|(i, _)| Some(*i as u8) != but);
        others.filter_map(|(_, cpu)| cpu.as_ref()).all(|cpu| cpu.owner != id || cpu.mode != Mode::Running || cpu.stopped)
    }

    fn phase_due(&self, call: &Call) -> Option<(Act, Effect)> {
        let act = match &call.phase {
            Phase::Decide => {
                if !self.are_stopped(self.root_id(), Some(call.caller)) {
                    return None;
                }
                return Some(match self.decide(call) {
                    Ok(Some(cell)) => (Act::Decide { refused: None }, Effect::Created(cell)),
                    Ok(None) => (Act::Decide { refused: None }, Effect::Nothing),
                    Err(answer) => (Act::Decide { refused: Some(answer) }, Effect::Nothing),
                });
            }
            Phase::Settle => Act::Settle { how: self.settled(call)? },
            Phase::Commit => {
                if !self.are_stopped(call.a as u32, None) {
                    return None;
                }
                Act::Commit
            }
            Phase::Create(_) => Act::Commit,
            Phase::Note(id) => Act::Note { id: *id },
            Phase::Noted(id) => Act::Noted { id: *id, how: self.heard(call, *id)? },
            Phase::Finish => Act::Finish { answer: call.answer },
        };
        Some((act, Effect::Nothing))
    }

    fn is_time_over(&self, call: &Call, cell: &Cell) -> bool {
        let timeout = cell.config.timeout;
        if timeout != 0 && call.waited >= timeout {
            return true;
        }
        let others = self.cpus.iter().enumerate().filter(|(i, _)| *i as u8 != call.caller);
        !others.filter_map(|(_, cpu)| cpu.as_ref()).any(|cpu| self.has_due(cpu))
    }

    fn settled(&self, call: &Call) -> Option<Settled> {
        let cell = &self.cells[self.place_of(call.a)?];
        if cell.config.is_passive() || matches!(cell.state(), SHUT_DOWN | FAILED) {
            return Some(Settled::Agreed);
        }
        match cell.reply() {
            REQUEST_APPROVED => Some(Settled::Agreed),
            0 => self.is_time_over(call, cell).then_some(Settled::Timeout),
            _ => Some(Settled::Denied),
        }
    }

    fn heard(&self, call: &Call, id: u32) -> Option<Heard> {
        let cell = &self.cells[self.place_of(id as u64)?];
        if matches!(cell.state(), SHUT_DOWN | FAILED) {
            return Some(Heard::Down);
        }
        match cell.reply() {
            RECEIVED => Some(Heard::Received),
            0 => self.is_time_over(call, cell).then_some(Heard::Timeout),
            _ => Some(Heard::Other),
        }
    }

    fn decide(&self, call: &Call) -> Result<Option<Box<Cell>>, i64> {
        if call.code == 1 {
            return self.decide_create(call).map(|cell| Some(Box::new(cell)));
        }
        match self.place_of(call.a) {
            None => Err(ENOENT),
            Some(0) => Err(EINVAL),
            Some(_) if call.code == 4 && self.is_locked(Some(call.a)) => Err(EPERM),
            Some(_) => Ok(None),
        }
    }

    /// Reads what root may read through its page-mapped regions.
    fn read_granted(&self, mut at: u64, mut bytes: &mut [u8]) -> Option<()> {
        if at >= ADDRESS_END || bytes.len() as u64 > ADDRESS_END - at {
            return None;
        }
        while !bytes.is_empty() {
            let run = self.run_at(0, at, bytes.len() as u64, READ)?;
            let (now, rest) = bytes.split_at_mut(run.length);
            self.read_run(0, &run, now);
            at += run.length as u64;
            bytes = rest;
        }
        Some(())
    }

    fn read_created(&self, at: u64) -> Result<CellConfig, i64> {
        let mut bytes = vec![0; CELL_HEADER];
        self.read_granted(at, &mut bytes).ok_or(EINVAL)?;
        test_head(&bytes, b"JHCELL", CELL_HEADER).map_err(|_| EINVAL)?;
        let (_, counts) = read_header(&bytes[8..]).map_err(|_| EINVAL)?;
        let total = total_of(&counts);
        if total > CELL_LIMIT {
            return Err(E2BIG);
        }
        bytes.resize(total, 0);
        self.read_granted(at + CELL_HEADER as u64, &mut bytes[CELL_HEADER..]).ok_or(EINVAL)?;
        read_cell(&bytes).map_err(|_| EINVAL)
    }

    fn decide_create(&self, call: &Call) -> Result<Cell, i64> {
        if self.is_locked(None) {
            return Err(EPERM);
        }
        let config = self.read_created(call.a)?;
        if self.cells.iter().any(|cell| cell.config.id == config.id || cell.config.name == config.name) {
            return Err(EEXIST);
        }
        let is_free = |cpu: usize| {
            let owner = self.cpus.get(cpu).and_then(|cpu| cpu.as_ref()).map(|cpu| cpu.owner);
            cpu != call.caller as usize && owner == Some(self.root_id())
        };
        if !config.cpus().all(is_free) {
            return Err(EBUSY);
        }
        self.judge(&config)?;
        let cell = Cell::new(config);
        if self.pages(Some(&cell)) > self.pool() {
            return Err(ENOMEM);
        }
        Ok(cell)
    }

    /// Checks a new cell beside root and the live cells.
    fn judge(&self, config: &CellConfig) -> Result<(), i64> {
        let mut is_found = false;
        let mut found = |_| is_found = true;
        let number = self.cells.len();
        check_alone(&self.system, number, config, &mut found);
        let mut addresses = virt_spans(number, config);
        addresses.sort_by_key(|span| span.first);
        let places = sorted_places(config);
        let cells: Vec<&CellConfig> = self.cells.iter().map(|cell| &cell.config).chain([config]).collect();
        let links = Links::new(&cells);
        links.check_devices(number, &mut found);
        let is_taken = |root: &Span, new: &Span| {
            is_subpage_taken(&self.system.root.regions[root.region], &config.regions[new.region])
        };
        if is_found || any_meet(&addresses) || any_meet(&places) {
            return Err(EINVAL);
        }
        if any_between(&self.cells[0].places, &places, is_taken) {
            return Err(EINVAL);
        }
        let overlaps = self.cells.iter().enumerate().skip(1).any(|(other, cell)| {
            any_between(&cell.places, &places, |one, new| links.is_overlap((other, one.region), (number, new.region)))
        });
        if overlaps { Err(EBUSY) } else { Ok(()) }
    }

    /// The first cell behind a place that is told of a change.
    fn next_told(&self, from: usize, but: u32) -> Phase {
        let mut others = self.cells[from..].iter().map(|cell| &cell.config);
        match others.find(|config| !config.is_passive() && config.id != but) {
            Some(config) => Phase::Note(config.id),
            None => Phase::Finish,
        }
    }

    // What an entry does.

    fn make(&mut self, step: Step) {
        let Step { entry, effect } = step;
        self.entries.push(entry);
        if let Some(call) = &mut self.call {
            if call.asked() == Some(entry.cell) {
                call.waited += 1;
            }
        }
        let number = entry.cpu as usize;
        match entry.act {
            Act::Stop => {
                if let Some(cpu) = &mut self.cpus[number] {
                    cpu.asked = false;
                    cpu.stopped = true;
                }
            }
            Act::Begin { code, a, .. } => self.begin(entry.cpu, code, a),
            Act::Decide { refused } => self.decided(refused, effect),
            Act::Settle { how } => self.settle(how),
            Act::Commit => self.commit(),
            Act::Note { id } => {
                let place = self.place_of(id as u64).unwrap();
                self.cells[place].send(RECONFIG_COMPLETED);
                let call = self.call.as_mut().unwrap();
                call.phase = Phase::Noted(id);
                call.waited = 0;
            }
            Act::Noted { id, how } => {
                let place = self.place_of(id as u64).unwrap();
                if how == Heard::Timeout {
                    self.cells[place].set_state(FAILED);
                }
                let mut call = self.call.take().unwrap();
                let created = if call.code == 1 { call.answer as u32 } else { self.root_id() };
                call.phase = self.next_told(place + 1, created);
                self.call = Some(call);
            }
            Act::Finish { .. } => {
                let root = self.root_id();
                self.call = None;
                self.cpus_of(root).for_each(|cpu| cpu.stopped = false);
                self.advance(number);
            }
            _ => self.make_op(entry, effect),
        }
    }

    fn advance(&mut self, number: usize) {
        if let Some(cpu) = &mut self.cpus[number] {
            cpu.position += 1;
        }
    }

    fn make_op(&mut self, entry: Entry, effect: Effect) {
        self.advance(entry.cpu as usize);
        let place = self.place_of(entry.cell as u64).unwrap();
        match entry.act {
            Act::Write { width, value, ok: true, .. } => {
                if let Effect::Write(reach) = effect {
                    self.write(place, &reach, width, value);
                }
            }
            Act::Irq { vector, .. } => {
                if let Some((i, _)) = self.pending(place) {
                    self.cells[place].endpoints[i].registers.pending &= !(1 << vector);
                }
            }
            Act::Read { got: None, .. }
            | Act::Fetch { got: None, .. }
            | Act::Write { ok: false, .. }
            | Act::Await { ok: false, .. } => self.fail(entry.cpu as usize, place),
            Act::Hvc { code: CPU_OFF, answer: 0, .. } => self.cpus[entry.cpu as usize].as_mut().unwrap().park(),
            Act::Hvc { code: CPU_ON, a, answer: 0, .. } => self.cpus[a as usize].as_mut().unwrap().restart(),
            _ => {}
        }
    }

    fn fail(&mut self, number: usize, place: usize) {
        if let Some(cpu) = &mut self.cpus[number] {
            cpu.mode = Mode::Failed;
        }
        let id = self.cells[place].config.id;
        if place != 0 && self.cpus_of(id).all(|cpu| cpu.mode == Mode::Failed) {
            self.cells[place].set_state(FAILED);
        }
    }

    fn begin(&mut self, caller: u8, code: u64, a: u64) {
        let root = self.root_id();
        for (i, cpu) in self.cpus.iter_mut().enumerate() {
            if let Some(cpu) = cpu {
                if i != caller as usize && cpu.owner == root && cpu.mode == Mode::Running {
                    cpu.asked = true;
                }
            }
        }
        self.call = Some(Call { caller, code, a, phase: Phase::Decide, waited: 0, answer: 0 });
    }

    fn decided(&mut self, refused: Option<i64>, effect: Effect) {
        let call = self.call.as_mut().unwrap();
        if let Some(answer) = refused {
            call.answer = answer;
            call.phase = Phase::Finish;
            return;
        }
        if let Effect::Created(cell) = effect {
            call.answer = cell.config.id as i64;
            call.phase = Phase::Create(cell);
            return;
        }
        call.phase = Phase::Settle;
        call.waited = 0;
        let id = call.a;
        let place = self.place_of(id).unwrap();
        if !self.cells[place].config.is_passive() {
            self.cells[place].send(SHUTDOWN_REQUEST);
        }
    }

    fn settle(&mut self, how: Settled) {
        let call = self.call.as_mut().unwrap();
        if how == Settled::Denied {
            call.answer = EPERM;
            call.phase = Phase::Finish;
            return;
        }
        call.phase = Phase::Commit;
        let id = call.a;
        if how == Settled::Timeout {
            let place = self.place_of(id).unwrap();
            self.cells[place].set_state(FAILED);
        }
        self.cpus_of(id as u32).filter(|cpu| cpu.mode == Mode::Running).for_each(|cpu| cpu.asked = true);
    }

    fn commit(&mut self) {
        let mut call = self.call.take().unwrap();
        call.phase = match (call.code, std::mem::replace(&mut call.phase, Phase::Finish)) {
            (_, Phase::Create(cell)) => {
                let id = cell.config.id;
                self.create(*cell);
                self.next_told(1, id)
            }
            (2, _) => {
                self.start(call.a);
                Phase::Finish
            }
            (3, _) => {
                self.load(call.a);
                Phase::Finish
            }
            _ => {
                self.destroy(call.a);
                self.next_told(1, self.root_id())
            }
        };
        self.call = Some(call);
    }

    fn create(&mut self, mut cell: Cell) {
        let config = &cell.config;
        for number in config.cpus() {
            let program = self.program_of(&config.name, number);
            let Some(cpu) = &mut self.cpus[number] else { continue };
            *cpu = Cpu {
                owner: config.id,
                mode: Mode::Parked,
                asked: false,
                stopped: false,
                position: 0,
                program,
                root_position: cpu.position,
                root_failed: cpu.mode == Mode::Failed,
            };
        }
        cell.freshen(SHUT_DOWN, self.system.ecam_base);
        self.cells.push(cell);
        self.clear_slots(self.cells.len() - 1);
        self.rebuild_closed();
    }

    fn load(&mut self, id: u64) {
        let place = self.place_of(id).unwrap();
        self.cells[place].set_state(SHUT_DOWN);
        self.cpus_of(id as u32).for_each(Cpu::park);
        self.set_loadable(place, true);
    }

    fn start(&mut self, id: u64) {
        let place = self.place_of(id).unwrap();
        let ecam_base = self.system.ecam_base;
        self.cells[place].freshen(RUNNING, ecam_base);
        self.reset_devices(place);
        let form = self.form;
        self.cpus_of(id as u32).enumerate().for_each(|(place, cpu)| match form {
            Form::Two if place > 0 => cpu.park(),
            _ => cpu.restart(),
        });
        self.set_loadable(place, false);
    }

    fn set_loadable(&mut self, place: usize, loadable: bool) {
        if self.cells[place].loadable != loadable {
            self.cells[place].loadable = loadable;
            self.rebuild_closed();
        }
    }

    fn destroy(&mut self, id: u64) {
        let place = self.place_of(id).unwrap();
        for number in 0..self.cells[place].endpoints.len() {
            self.put_state(place, number, 0);
        }
        self.cells.remove(place);
        for number in 0..16 {
            let program = self.program_of(&self.system.root.name, number);
            let end = program.map_or(0, |program| self.programs[program].ops.len());
            let root = self.root_id();
            let Some(cpu) = self.cpus[number].as_mut().filter(|cpu| cpu.owner == id as u32) else { continue };
            *cpu = Cpu {
                owner: root,
                mode: Mode::Running,
                asked: false,
                stopped: true,
                position: if cpu.root_failed { end } else { cpu.root_position },
                program,
                root_position: 0,
                root_failed: false,
            };
        }
        self.rebuild_closed();
    }

    // Turns.

    /// Whether the item could be made or had nothing due; not where the journal is full.
    fn item(&mut self, cpu: u8) -> Turn {
        match self.due(cpu) {
            None => Turn::NotNow,
            Some(_) if self.entries.len() == MAX_ENTRIES => Turn::Full,
            Some(step) => {
                self.make(step);
                Turn::Made
            }
        }
    }

    fn turn(&mut self, cpu: u8) -> Turn {
        match self.item(cpu) {
            Turn::NotNow if self.is_quiet() => Turn::Done,
            turn => turn,
        }
    }

    fn is_quiet(&self) -> bool {
        (0..16).all(|cpu| self.due(cpu).is_none())
    }

    fn numbers(&self) -> Vec<u8> {
        (0..16).filter(|&cpu| self.cpus[cpu as usize].is_some()).collect()
    }

    /// Plays a schedule and then rounds, and tells whether the journal stopped at its limit.
    fn play(&mut self, schedule: &[u8]) -> bool {
        for &cpu in schedule {
            if let Turn::Full = self.item(cpu) {
                return true;
            }
        }
        let numbers = self.numbers();
        loop {
            let before = self.entries.len();
            for &cpu in &numbers {
                if let Turn::Full = self.item(cpu) {
                    return true;
                }
            }
            if self.entries.len() == before {
                return false;
            }
        }
    }
}

/// Runs a board with a worker for each CPU, and tells whether the journal stopped at its limit.
fn run(board: Board) -> (Board, bool) {
    match std::thread::Builder::new().spawn(|| {}) {
        Ok(thread) => thread.join().unwrap(),
        Err(_) => return run_alone(board),
    }
    let numbers = board.numbers();
    let shared = Mutex::new((board, false));
    let work = |cpu: u8| loop {
        let mut held = shared.lock().unwrap();
        if held.1 {
            return;
        }
        match held.0.turn(cpu) {
            Turn::Made => {}
            Turn::Done => return,
            Turn::Full => {
                held.1 = true;
                return;
            }
            Turn::NotNow => {
                drop(held);
                std::thread::yield_now();
            }
        }
    };
    std::thread::scope(|scope| {
        let work = &work;
        for &cpu in &numbers[1..] {
            scope.spawn(move || work(cpu));
        }
        work(numbers[0]);
    });
    shared.into_inner().unwrap()
}

/// The same where no thread can be started: one goes on to the next CPU where nothing is due to one.
fn run_alone(mut board: Board) -> (Board, bool) {
    let numbers = board.numbers();
    for &cpu in numbers.iter().cycle() {
        loop {
            match board.turn(cpu) {
                Turn::Made => {}
                Turn::NotNow => break,
                Turn::Done => return (board, false),
                Turn::Full => return (board, true),
            }
        }
    }
    (board, false)
}

// ---------------------------------------------------------------------------------------------------------
// The board of `soak`

fn spell_cell(name: &str, id: u32, cpu: u8, regions: &[[u64; 4]]) -> Vec<u8> {
    let mut bytes = vec![0; CELL_HEADER];
    bytes[..6].copy_from_slice(b"JHCELL");
    bytes[6] = 13;
    bytes[8..8 + name.len()].copy_from_slice(name.as_bytes());
    bytes[40..44].copy_from_slice(&id.to_le_bytes());
    bytes[48] = 8;
    bytes[52] = regions.len() as u8;
    bytes.extend((1u64 << cpu).to_le_bytes());
    bytes.extend(regions.iter().flatten().flat_map(|word| word.to_le_bytes()));
    bytes
}

fn soak_programs(rounds: u64) -> Vec<Program> {
    let program = |cell: &str, cpu, ops| Program { cell: cell.to_string(), cpu, ops };
    let hvc = |code, a| Op::Hvc { code, a, b: 0 };
    let write = |at, value| Op::Write { width: 8, at, value };
    let round = |r| {
        [
            hvc(1, 0x4800_0000), hvc(1, 0x4801_0000), hvc(3, 1), write(0x5000_0000, r), hvc(2, 1), hvc(2, 2),
            hvc(4, 1), hvc(4, 2), Op::Read { width: 8, at: 0x5000_0008 },
        ]
    };
    let numbers = || (1..=16).map(|i| write(8 * i, i));
    let told = |value| Op::Await { width: 4, at: 0x8000_000c, value };
    let reply = |value| Op::Write { width: 4, at: 0x8000_0010, value };
    let writes = (0..256).map(|i| write(0x4000_0000 + 8 * i, i));
    let reads = (0..256).map(|i| Op::Read { width: 8, at: 0x4000_0000 + 8 * i });
    let first = [Op::Read { width: 8, at: 0 }].into_iter();
    vec![
        program("soak", 0, (1..=rounds).flat_map(round).collect()),
        program("soak", 1, writes.chain(reads).collect()),
        program("a", 2, first.chain(numbers()).chain([told(1), reply(3)]).collect()),
        program("b", 3, numbers().chain([told(2), reply(4), told(1), reply(3)]).collect()),
    ]
}

fn soak_image(rounds: u64) -> Image {
    let region = |phys, virt, size, flags| Region { phys, virt, size, flags };
    let root = CellConfig {
        name: "soak".to_string(),
        id: 0,
        flags: 0,
        timeout: 0,
        console: [0; 32],
        cpu_set: vec![0xf, 0, 0, 0, 0, 0, 0, 0],
        regions: vec![region(0x4000_0000, 0x4000_0000, 0x3fc0_0000, 0xf)],
        devices: Vec::new(),
    };
    let hypervisor = region(0x7fc0_0000, 0, 0x40_0000, 0);
    let cell = |name, id, cpu, at| {
        spell_cell(name, id, cpu, &[[at, 0, 0x10000, 0x4f], [0, 0x8000_0000, 0x1000, 0x23]])
    };
    Image {
        system: SystemConfig { hypervisor, ecam_base: 0, end_bus: 0, root },
        preloads: vec![
            (0x4800_0000, cell("a", 1, 2, 0x5000_0000)),
            (0x4801_0000, cell("b", 2, 3, 0x6000_0000)),
        ],
        programs: soak_programs(rounds),
    }
}

fn summary(entries: &[Entry]) -> String {
    let (mut reads, mut writes, mut stops, mut sum) = (0u64, 0u64, 0u64, 0u128);
    for entry in entries {
        match entry.act {
            Act::Read { got, .. } => {
                reads += 1;
                sum += got.unwrap_or(0) as u128;
            }
            Act::Write { .. } => writes += 1,
            Act::Stop => stops += 1,
            _ => {}
        }
    }
    format!("entries {} reads {reads} writes {writes} stops {stops} sum {sum}\n", entries.len())
}

// ---------------------------------------------------------------------------------------------------------
// Commands

fn do_check(system: &str, cells: &[String]) -> Result<(String, i32), Stop> {
    let read = read_system(&read_file(system, FILE_LIMIT)?).or_else(|fault| refused(system, fault))?;
    let mut configs = Vec::new();
    for name in cells {
        configs.push(read_cell(&read_file(name, FILE_LIMIT)?).or_else(|fault| refused(name, fault))?);
    }
    let findings = check(&read, &configs);
    let mut text = String::new();
    for finding in &findings {
        let _ = writeln!(text, "{finding}");
    }
    let _ = writeln!(text, "findings {}", findings.len());
    Ok((text, !findings.is_empty() as i32))
}

fn full(is_full: bool) -> i32 {
    if is_full { 7 } else { 0 }
}

fn do_play(board: &str, schedule: &str) -> Result<(String, i32), Stop> {
    let mut opened = Board::open(read_image(board)?, Form::Two);
    let text = read_file(schedule, FILE_LIMIT)?;
    let is_cpu = |cpu: u64| cpu < 16 && opened.cpus[cpu as usize].is_some();
    let items = read_schedule(&text, is_cpu).or_else(|fault| refused(schedule, fault))?;
    let is_full = opened.play(&items);
    Ok((print_journal(opened.form, &opened.entries), full(is_full)))
}

fn do_run(board: &str) -> Result<(String, i32), Stop> {
    let (board, is_full) = run(Board::open(read_image(board)?, Form::Two));
    Ok((print_journal(board.form, &board.entries), full(is_full)))
}

fn do_audit(board: &str, journal: &str) -> Result<(String, i32), Stop> {
    let image = read_image(board)?;
    let text = read_file(journal, JOURNAL_LIMIT)?;
    let (form, entries) = read_journal(&text).or_else(|fault| refused(journal, fault))?;
    let mut opened = Board::open(image, form);
    for (i, entry) in entries.iter().enumerate() {
        match opened.due(entry.cpu) {
            Some(step) if step.entry == *entry => opened.make(step),
            Some(step) => return Ok((format!("illegal line {}: due {}\n", form.line(i + 1), step.entry), 1)),
            None => return Ok((format!("illegal line {}: nothing due\n", form.line(i + 1)), 1)),
        }
    }
    let how = if opened.is_quiet() { "quiet" } else { "unfinished" };
    Ok((format!("legal {} {how}\n", entries.len()), 0))
}

fn do_soak(word: &str) -> Result<(String, i32), Stop> {
    match decimal(word.as_bytes()) {
        Some(rounds @ 1..=400) => {
            let (board, is_full) = run(Board::open(soak_image(rounds), Form::Two));
            Ok((summary(&board.entries), full(is_full)))
        }
        _ => Ok(("refused: N\n".to_string(), 3)),
    }
}

// ---------------------------------------------------------------------------------------------------------
// Plans

const LARGE: u64 = 0x20_0000;

struct Demand {
    name: String,
    id: u32,
    cpus: usize,
    size: u64,
    loadable: bool,
}

fn read_demand(words: &[&[u8]]) -> Option<Demand> {
    let (words, loadable) = match words {
        [words @ .., b"loadable"] if words.len() == 5 => (words, true),
        _ => (words, false),
    };
    let [b"cell", name, id, cpus, size] = words else { return None };
    let is_letter = |&byte: &u8| (0x21..=0x7e).contains(&byte) && byte != b'"' && byte != b'\\';
    let (cpus, size) = (number(cpus)?, number(size)?);
    let is_good = (1..=31).contains(&name.len())
        && name.iter().all(is_letter)
        && (1..=15).contains(&cpus)
        && size > 0
        && size % PAGE == 0;
    is_good.then_some(Demand {
        name: String::from_utf8_lossy(name).into_owned(),
        id: number(id)?.try_into().ok()?,
        cpus: cpus as usize,
        size,
        loadable,
    })
}

fn read_demands(text: &[u8]) -> Result<Vec<Demand>, String> {
    let mut demands = Vec::new();
    let mut words = Vec::new();
    for (i, line) in text.split_inclusive(|&byte| byte == b'\n').enumerate() {
        let line = line.strip_suffix(b"\n").map_or(line, |line| line.strip_suffix(b"\r").unwrap_or(line));
        words.clear();
        words.extend(line.split(|&byte| byte == b' ' || byte == b'\t').filter(|word| !word.is_empty()));
        if !line.is_ascii() {
            return Err(format!("line {}: syntax", i + 1));
        }
        if words.first().is_none_or(|word| word[0] == b'#') {
            continue;
        }
        match read_demand(&words) {
            None => return Err(format!("line {}: syntax", i + 1)),
            Some(_) if demands.len() == 15 => return Err("demands too many".to_string()),
            Some(demand) => demands.push(demand),
        }
    }
    Ok(demands)
}

/// The ranges of root, as first and end, in which cells may have memory.
fn rooms(root: &CellConfig) -> Vec<(u64, u64)> {
    let is_section = |number| root.shmem_devices().any(|(_, device)| device.offset_of(number).is_some());
    let has_room = |region: &Region| {
        region.is_page_mapped() && region.has(READ) && region.has(WRITE) && region.has(EXECUTE)
    };
    let regions = root.regions.iter().enumerate();
    let found = regions.filter(|(number, region)| has_room(region) && !is_section(*number));
    found.filter_map(|(_, region)| Some((region.phys, region.phys.checked_add(region.size)?))).collect()
}

/// The greatest free place of the rooms.
fn place_of(rooms: &[(u64, u64)], taken: &[(u64, u64)], size: u64) -> Option<u64> {
    let step = if size < LARGE { PAGE } else { LARGE };
    let highest = |&(first, end): &(u64, u64)| {
        let mut place = end.checked_sub(size)? / step * step;
        while place >= first {
            match taken.iter().find(|range| range.0 < place + size && place < range.1) {
                None => return Some(place),
                Some(range) => place = range.0.checked_sub(size)? / step * step,
            }
        }
        None
    };
    rooms.iter().filter_map(highest).max()
}

/// The cells that meet the demands and all pages, or the number of the first demand that isn't met and why.
fn plan(system: &SystemConfig, demands: &[Demand]) -> Result<(Vec<CellConfig>, u64), String> {
    let root = &system.root;
    let rooms = rooms(root);
    let mut left: Vec<usize> = root.cpus().skip(1).collect();
    let (mut cells, mut taken, mut cuts) = (Vec::<CellConfig>::new(), Vec::new(), Vec::new());
    let mut own = 0;
    let mut pages = tables(&root.regions, &[]);
    for (number, demand) in demands.iter().enumerate() {
        let why = |word: &str| Err(format!("demand {} {word}", number + 1));
        if cells.iter().chain([root]).any(|cell| cell.id == demand.id || cell.name == demand.name) {
            return why("taken");
        }
        if left.len() < demand.cpus {
            return why("cpus");
        }
        let Some(place) = place_of(&rooms, &taken, demand.size) else { return why("place") };
        let comm = demand.size.next_multiple_of(LARGE);
        if comm + PAGE > 1 << 48 {
            return why("place");
        }
        let mut cpu_set = vec![0; 8];
        for cpu in left.split_off(left.len() - demand.cpus) {
            cpu_set[cpu / 8] |= 1 << (cpu % 8);
        }
        let flags = if demand.loadable { 0x47 } else { 0x7 };
        let memory = Region { phys: place, virt: 0, size: demand.size, flags };
        let page = Region { phys: 0, virt: comm, size: PAGE, flags: 0x23 };
        let cell = CellConfig {
            name: demand.name.clone(),
            id: demand.id,
            flags: 0,
            timeout: 0,
            console: [0; 32],
            cpu_set,
            regions: vec![memory, page],
            devices: Vec::new(),
        };
        cuts.extend(unshared_places(&cell));
        own += tables(&cell.regions, &[]) + 1;
        pages = tables(&root.regions, &cuts) + own;
        if pages > system.hypervisor.size / PAGE {
            return why("pages");
        }
        taken.push((place, place + demand.size));
        cells.push(cell);
    }
    Ok((cells, pages))
}

fn spec_line(cell: &CellConfig) -> String {
    let cpus: Vec<String> = cell.cpus().map(|cpu| cpu.to_string()).collect();
    let region = |it: &Region| {
        format!("{{\"flags\":{},\"phys\":{},\"size\":{},\"virt\":{}}}", it.flags, it.phys, it.size, it.virt)
    };
    let regions: Vec<String> = cell.regions.iter().map(region).collect();
    format!(
        "{{\"cpus\":[{}],\"id\":{},\"kind\":\"cell\",\"name\":\"{}\",\"regions\":[{}]}}\n",
        cpus.join(","),
        cell.id,
        cell.name,
        regions.join(",")
    )
}

fn do_plan(system: &str, name: &str) -> Result<(String, i32), Stop> {
    let read = read_system_of(system, system)?;
    let demands = read_demands(&read_file(name, FILE_LIMIT)?).or_else(|fault| refused(name, fault))?;
    let (cells, pages) = plan(&read, &demands).or_else(|fault| refused(name, fault))?;
    let mut text: String = cells.iter().map(spec_line).collect();
    let _ = writeln!(text, "pages {pages} of {}", read.hypervisor.size / PAGE);
    Ok((text, 0))
}

fn outcome(words: &[String]) -> (String, i32) {
    let usage = || (USAGE.to_string(), 2);
    let Some((command, operands)) = words.split_first() else { return usage() };
    if words.iter().any(|word| word.starts_with('-')) {
        return usage();
    }
    let done = match (command.as_str(), operands) {
        ("check", [system, cells @ ..]) if cells.len() <= 15 => do_check(system, cells),
        ("play", [board, schedule]) => do_play(board, schedule),
        ("run", [board]) => do_run(board),
        ("audit", [board, journal]) => do_audit(board, journal),
        ("soak", [rounds]) => do_soak(rounds),
        ("plan", [system, demands]) => do_plan(system, demands),
        _ => return usage(),
    };
    match done {
        Ok(outcome) => outcome,
        Err(Stop::ReadFault(name)) => (format!("read fault: {name}\n"), 4),
        Err(Stop::Refused(name, words)) => (format!("refused: {name}: {words}\n"), 3),
    }
}

fn main() {
    let words: Result<Vec<String>, _> = std::env::args_os().skip(1).map(|word| word.into_string()).collect();
    let (text, status) = outcome(&words.unwrap_or_default());
    let mut out = std::io::stdout().lock();
    if out.write_all(text.as_bytes()).and_then(|()| out.flush()).is_err() {
        exit(5);
    }
    exit(status);
}
