//! The machine, how busy it is, and the compilers.

use crate::peers::isal;
use std::fs;
use std::thread;

pub fn print() {
    let cores = thread::available_parallelism().map_or(1, |count| count.get());
    let kind = if cpu().contains(" hypervisor") {
        "virtual machine"
    } else {
        "machine"
    };
    println!(
        "A {kind} with {cores} {} cores of {} ({}), {}, {} GiB of memory. Its load in the minute before: {}.",
        std::env::consts::ARCH,
        processor(),
        instructions(),
        caches(),
        memory(),
        load()
    );
    println!(
        "The peers: {}, opt-level 3, for any {} processor (the exclusive-or of ISA-L v3 for those with AVX2); ISA-L {}.",
        env!("BENCH_RUSTC"),
        std::env::consts::ARCH,
        isal::VERSION.unwrap_or("is not installed and skipped (Debian: libisal-dev)")
    );
}

/// Whether the processor is one of x86-64-v3, for which the second archive is compiled.
pub fn is_v3() -> bool {
    #[cfg(target_arch = "x86_64")]
    return is_x86_feature_detected!("avx2")
        && is_x86_feature_detected!("bmi1")
        && is_x86_feature_detected!("bmi2")
        && is_x86_feature_detected!("f16c")
        && is_x86_feature_detected!("fma")
        && is_x86_feature_detected!("lzcnt")
        && is_x86_feature_detected!("movbe");
    #[cfg(not(target_arch = "x86_64"))]
    false
}

fn cpu() -> String {
    fs::read_to_string("/proc/cpuinfo").unwrap_or_default()
}

/// The processor as it calls itself; a virtual one often leaves out what only its numbers tell.
fn processor() -> String {
    let cpu = cpu();
    let told = |name: &str| {
        let mut lines = cpu.lines().filter_map(|line| line.split_once(':'));
        let line = lines.find(|(found, _)| found.trim() == name);
        line.map_or("of no name", |(_, text)| text.trim())
            .to_string()
    };
    format!(
        "{}, family {}, model {}",
        told("model name"),
        told("cpu family"),
        told("model")
    )
}

/// How many processes ran or wanted to, on average over the last minute.
fn load() -> String {
    let text = fs::read_to_string("/proc/loadavg").unwrap_or_default();
    let minute = text.split_whitespace().next();
    minute.unwrap_or("not known").to_string()
}

/// The vector instructions that matter to ISA-L and memcpy.
fn instructions() -> String {
    let cpu = cpu();
    let names = [
        (" pclmulqdq", "PCLMULQDQ"),
        (" avx2", "AVX2"),
        (" avx512f", "AVX-512"),
        (" vpclmulqdq", "VPCLMULQDQ"),
    ];
    let present = names.iter().filter(|(flag, _)| cpu.contains(flag));
    let present: Vec<&str> = present.map(|(_, name)| *name).collect();
    present.join(", ")
}

fn caches() -> String {
    let mut caches = Vec::new();
    for index in 0..8 {
        let read = |name| {
            let path = format!("/sys/devices/system/cpu/cpu0/cache/index{index}/{name}");
            fs::read_to_string(path).map(|text| text.trim().to_string())
        };
        if let (Ok(level), Ok(kind), Ok(size)) = (read("level"), read("type"), read("size"))
            && kind != "Instruction"
        {
            let kibibytes: usize = size.trim_end_matches('K').parse().unwrap_or(0);
            caches.push(if kibibytes < 1024 {
                format!("L{level} {kibibytes} KiB")
            } else {
                format!("L{level} {} MiB", kibibytes / 1024)
            });
        }
    }
    caches.join(", ")
}

fn memory() -> u64 {
    let text = fs::read_to_string("/proc/meminfo").unwrap_or_default();
    let total = text.split_whitespace().nth(1);
    let kibibytes: u64 = total.and_then(|total| total.parse().ok()).unwrap_or(0);
    kibibytes.div_ceil(1 << 20)
}
