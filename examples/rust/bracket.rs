//! Renumbers a mesh file, says what another order would give, how many passes each part took and where it is thickest, eliminates by the new
//! numbers and opens the store, which is laid out in unknowns: examples/bracket.grd, or the file named.
//! rustc --edition 2021 -L target/staticlib -l static=capi examples/rust/bracket.rs
mod wagonepoch;

/// How many nodes an element has, by its kind less 1.
const NODE_COUNT: [usize; 10] = [2, 3, 4, 4, 5, 6, 8, 6, 8, 10];

/// How many elements the words are, to their end; none where a kind is unknown or the last element runs past the end.
fn elements_in(words: &[u16]) -> Option<usize> {
    let (mut at, mut count) = (0, 0);
    while at < words.len() {
        at += 1 + NODE_COUNT.get(usize::from(words[at]).wrapping_sub(1))?;
        count += 1;
    }
    (at == words.len()).then_some(count)
}

/// What a file has: the number of nodes, how many unknowns each has, and the words of the elements.
struct Mesh {
    n: usize,
    counts: Vec<u16>,
    elements: Vec<u16>,
}

/// The file's words after its header of 9 bytes, low byte first; n is the second word of the header. The third says how many elements there are:
/// they are counted here, as the mesh call knows no such number. In version 2 the counts of unknowns come before the elements, in version 1 each
/// node has one.
fn read_mesh(name: &str) -> Result<Mesh, String> {
    let file = std::fs::read(name).map_err(|e| format!("{name}: {e}"))?;
    let word = |b: &[u8]| u16::from_le_bytes([b[0], b[1]]);
    let broken = || format!("{name} is no mesh");
    if file.len() < 9 || file.len() > 65535 || file.len() % 2 == 0 || !file.starts_with(b"GRD") || !(1..=2).contains(&word(&file[3..])) {
        return Err(broken());
    }
    let n = usize::from(word(&file[5..]));
    let mut counts: Vec<u16> = file[9..].chunks_exact(2).map(word).collect();
    let elements = if word(&file[3..]) == 2 { (n <= counts.len()).then(|| counts.split_off(n)).ok_or_else(broken)? } else { counts.split_off(0) };
    counts.resize(n, 1);
    if elements_in(&elements) != Some(word(&file[7..]).into()) || counts.iter().any(|count| !(1..=6).contains(count)) {
        return Err(broken());
    }
    Ok(Mesh { n, counts, elements })
}

/// A graph by its two lists, and the unknowns of its nodes.
struct Graph {
    starts: Vec<u16>,
    neighbours: Vec<u16>,
    counts: Vec<u16>,
}

impl Graph {
    fn row(&self, p: usize) -> &[u16] {
        &self.neighbours[self.starts[p - 1].into()..self.starts[p].into()]
    }

    /// The unknowns of each node, by new numbers: they take consecutive numbers in the order of their nodes. Place 0 is unused.
    fn unknowns(&self, numbers: &[u16]) -> Vec<std::ops::Range<usize>> {
        let mut order: Vec<usize> = (1..=numbers.len()).collect();
        order.sort_by_key(|&p| numbers[p - 1]);
        let (mut found, mut next) = (vec![0..0; numbers.len() + 1], 1);
        for p in order {
            let end = next + usize::from(self.counts[p - 1]);
            found[p] = next..end;
            next = end;
        }
        found
    }
}

/// The store: its map, its marks, and which of its rows are a node's unknowns.
struct Store {
    unknowns: Vec<std::ops::Range<usize>>,
    map: wagonepoch::StoreMap,
    bytes: Vec<u8>,
}

impl Store {
    fn new(graph: &Graph, numbers: &[u16], bytes: Vec<u8>) -> Result<Store, String> {
        let map = wagonepoch::store_map(&graph.starts, &graph.neighbours, &graph.counts, numbers)?;
        Ok(Store { unknowns: graph.unknowns(numbers), map, bytes })
    }

    /// How many rows it has.
    fn size(&self) -> usize {
        self.map.first.len()
    }

    /// f_q, the first unknown of row q.
    fn first(&self, q: usize) -> usize {
        self.map.first[q - 1].into()
    }

    /// The mark of the pair p < q.
    fn marked(&self, p: usize, q: usize) -> bool {
        if p < self.first(q) {
            return false;
        }
        let t = self.map.place[q - 1] as usize + p - self.first(q);
        self.bytes[t / 8] >> (t % 8) & 1 == 1
    }

    /// How many pairs of an unknown of one node and a later one of another, or of the same, are marked.
    fn marked_pairs(&self, one: usize, other: usize) -> usize {
        let later = |p: usize| self.unknowns[other].clone().filter(move |&q| p < q && self.marked(p, q)).count();
        self.unknowns[one].clone().map(later).sum()
    }
}

fn print_measures(when: &str, graph: &Graph, numbers: &[u16]) -> Result<(), String> {
    let [bandwidth, profile, front] = wagonepoch::measures(&graph.starts, &graph.neighbours, &graph.counts, numbers)?;
    println!("{when}: bandwidth {bandwidth} profile {profile} front {front}");
    Ok(())
}

/// The passes of each part, parts by lowest old number: which of them the search for its ends was slow on.
fn print_passes(passes: &[u16]) {
    println!("passes:{}", passes.iter().map(|count| format!(" {count}")).collect::<String>());
}

/// Where the part that has number 1 is thickest, level by level from the node with that number: the first level with the most nodes.
fn print_thickest(graph: &Graph, numbers: &[u16]) -> Result<(), String> {
    let root = 1 + numbers.iter().take_while(|&&number| number != 1).count();
    let rooted = wagonepoch::rooted_levels(&graph.starts, &graph.neighbours, root as u16)?;
    let [depth, width, _] = rooted.figures;
    let thickest = 1 + rooted.sizes.iter().take_while(|&&size| u64::from(size) != width).count();
    println!("levels: root {root} depth {depth} thickest {thickest} nodes {width}");
    Ok(())
}

/// Counts the marks, and those of pairs that adjoin: of two neighbours, or of one node.
fn open_store(graph: &Graph, store: &Store) {
    let size = store.size();
    let ones: usize = (1..=size).map(|q| (store.first(q)..q).filter(|&p| store.marked(p, q)).count()).sum();
    let near = |p: usize| graph.row(p).iter().map(|&r| r.into()).chain([p]).map(move |r| store.marked_pairs(p, r)).sum::<usize>();
    let edges: usize = (1..=graph.counts.len()).map(near).sum();
    println!("store: places {} marked {ones} edges {edges}", store.map.place[size]);
}

fn run() -> Result<(), String> {
    let name = std::env::args().nth(1).unwrap_or("examples/bracket.grd".into());
    let Mesh { n, counts, elements } = read_mesh(&name)?;
    let (starts, neighbours) = wagonepoch::mesh(n, &elements)?;
    println!("mesh: nodes {n} unknowns {} entries {}", counts.iter().map(|&count| u64::from(count)).sum::<u64>(), neighbours.len());
    let graph = Graph { starts, neighbours, counts };
    let before: Vec<u16> = (1..=n as u16).collect();
    print_measures("before", &graph, &before)?;
    let run = wagonepoch::run(&graph.starts, &graph.neighbours, &graph.counts)?;
    print_measures("after", &graph, &run.numbers)?;
    let reverse = wagonepoch::reverse_cuthill_mckee(&graph.starts, &graph.neighbours, &graph.counts)?;
    print_measures("reverse Cuthill-McKee", &graph, &reverse.numbers)?;
    print_passes(&run.passes);
    print_thickest(&graph, &run.numbers)?;
    // as another program would hand the numbers on, and get them back
    let pairs: Vec<u16> = before.iter().zip(&run.numbers).flat_map(|(&old, &new)| [old, new]).collect();
    let figures = [run.figures[2], run.figures[3], run.figures[4]];
    let numbers = wagonepoch::import_numbering(&graph.starts, &graph.neighbours, &graph.counts, &pairs, figures)?;
    assert_eq!(numbers, run.numbers);
    let (bytes, [marked, new]) = wagonepoch::eliminate(&graph.starts, &graph.neighbours, &graph.counts, &run.numbers, run.figures[3])?;
    println!("elimination: marked {marked} new {new}");
    open_store(&graph, &Store::new(&graph, &run.numbers, bytes)?);
    Ok(())
}

fn main() {
    if let Err(why) = run() {
        println!("{why}");
        std::process::exit(1);
    }
}
