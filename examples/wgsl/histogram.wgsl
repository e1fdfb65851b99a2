// How often each value below 16 stands in a list, by one invocation; and the greatest count.

alias Counts = array<u32, 16>;

struct Histogram {
    counts: Counts,
    most: u32,
    /* what is left over */ others: u32,
}

@group(1) @binding(0) var<storage> values: array<u32>;
@group(1) @binding(3) var<storage, read_write> histogram: Histogram;

override first: u32 = 0;

@compute @workgroup_size(1, 1)
fn count() {
    var counts = Counts();
    var others = 0u;
    var at = first;
    loop {
        if at >= arrayLength(&values) { break; }
        let value = values[at];
        switch value {
            case 0, 1, 2, 3, 4, 5, 6, 7: { counts[value] += 1; }
            case 8u, 9u { counts[value]++; }
            default: {
                if value < 16 { counts[value] = counts[value] + 1; } else { others += 1u; }
            }
        }
        continuing {
            at += 1;
            break if others == 0xffffffff;
        }
    }
    var most = 0u;
    for (var place = 0; place < 16; place++) {
        most = max(most, counts[place]);
    }
    histogram.counts = counts;
    histogram.most = select(most, 0u, most == 0u || others > most);
    histogram.others = others;
}
