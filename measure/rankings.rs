//! All rankings of some items, in lexicographic order, for the baselines.

pub fn rankings(items: &[u8]) -> Vec<Vec<u8>> {
    if items.is_empty() { return vec![vec![]]; }
    let mut all = Vec::new();
    for (i, x) in items.iter().enumerate() {
        let mut others = items.to_vec();
        others.remove(i);
        for rest in rankings(&others) {
            let mut ranking = vec![*x];
            ranking.extend(rest);
            all.push(ranking);
        }
    }
    all
}
