// The greatest value of a flow over the four nodes of the README, by the export itself.
#[link(name = "provedflow")]
extern "C" {
    fn provedflow_flow_lists(
        nodes: u32, src: *const u32, src_length: usize, dst: *const u32, dst_length: usize, cap: *const u64,
        cap_length: usize, sources: *const u32, sources_length: usize, sinks: *const u32, sinks_length: usize,
        flow: *mut u64, flow_length: usize, high: *mut u64, low: *mut u64,
    ) -> u32;
}

fn main() {
    let (src, dst): ([u32; 5], [u32; 5]) = ([0, 0, 1, 1, 2], [1, 2, 2, 3, 3]);
    let (cap, mut flow): ([u64; 5], [u64; 5]) = ([3, 2, 1, 2, 3], [0; 5]);
    let (source, sink, mut high, mut low) = ([0u32], [3u32], 0u64, 0u64);
    // The lists outlive the call, and what it writes overlaps nothing.
    let status = unsafe {
        provedflow_flow_lists(
            4, src.as_ptr(), 5, dst.as_ptr(), 5, cap.as_ptr(), 5, source.as_ptr(), 1, sink.as_ptr(), 1,
            flow.as_mut_ptr(), 5, &mut high, &mut low,
        )
    };
    println!("{status} {high} {low} {flow:?}");
}
