//! Points of different layers that stand under one another.

/// Points in columns, each with at most one point of a layer. No two columns cross.
pub(super) struct Columns {
    /// The column of each point, by its first point.
    first: Vec<usize>,
}

impl Columns {
    /// Goes through the layers from the first on, and puts each point into the column of its middle
    /// neighbour before it, where that goes without crossing what was put before.
    pub(super) fn new(layers: &[Vec<usize>], before: &[Vec<usize>]) -> Self {
        let mut columns = Self { first: (0..before.len()).collect() };
        let mut place = vec![0; before.len()];
        for layer in layers {
            layer.iter().enumerate().for_each(|(at, &point)| place[point] = at);
            columns.go_on(layer, before, &place);
        }
        columns
    }

    /// Puts the points of a layer into the columns of the layer before.
    fn go_on(&mut self, layer: &[usize], before: &[Vec<usize>], place: &[usize]) {
        // From this place on, points of the layer before are right of all columns that go on.
        let mut free = 0;
        for &point in layer {
            let mut near = before[point].clone();
            near.sort_by_key(|&other| place[other]);
            if let Some(&other) = middle(&near).iter().find(|&&other| place[other] >= free) {
                self.first[point] = self.first[other];
                free = place[other] + 1;
            }
        }
    }

    /// The place of each point: as far left as the columns and the room between points allow, and
    /// then as far right as what is right of its column allows.
    pub(super) fn places(&self, layers: &[Vec<usize>], apart: &dyn Fn(usize, usize) -> f64) -> Vec<f64> {
        let pairs = layers.iter().flat_map(|layer| layer.windows(2));
        let links = pairs.map(|pair| (self.first[pair[0]], self.first[pair[1]], apart(pair[0], pair[1])));
        let links = in_order(links.collect(), self.first.len());
        let mut x = vec![0.0_f64; self.first.len()];
        links.iter().for_each(|&(left, right, apart)| x[right] = x[right].max(x[left] + apart));
        let limit = limits(&links, &x);
        self.first.iter().map(|&column| moved(x[column], limit[column])).collect()
    }
}

/// Two columns of which the first is left of the second, and how far apart they are at least.
type Link = (usize, usize, f64);

/// How far right each column may go. One with nothing right of it has no limit.
fn limits(links: &[Link], x: &[f64]) -> Vec<f64> {
    let mut limit = vec![f64::INFINITY; x.len()];
    for &(left, right, apart) in links.iter().rev() {
        limit[left] = limit[left].min(moved(x[right], limit[right]) - apart);
    }
    limit
}

/// The place moved right to its limit, where there is one.
fn moved(x: f64, limit: f64) -> f64 {
    if limit.is_finite() {
        x.max(limit)
    } else {
        x
    }
}

/// The one or the two in the middle.
fn middle(points: &[usize]) -> &[usize] {
    let count = points.len();
    if count == 0 {
        return points;
    }
    &points[(count - 1) / 2..=count / 2]
}

/// The links in an order in which all links to a column come before all links from it.
fn in_order(links: Vec<Link>, columns: usize) -> Vec<Link> {
    let mut from: Vec<Vec<Link>> = vec![Vec::new(); columns];
    let mut missing = vec![0; columns];
    for link in links {
        from[link.0].push(link);
        missing[link.1] += 1;
    }
    let mut open: Vec<usize> = (0..columns).filter(|&column| missing[column] == 0).collect();
    let mut ordered = Vec::new();
    while let Some(column) = open.pop() {
        from[column].iter().for_each(|link| missing[link.1] -= 1);
        let mut next: Vec<usize> = from[column].iter().map(|link| link.1).collect();
        next.retain(|&next| missing[next] == 0);
        next.sort();
        next.dedup();
        open.append(&mut next);
        ordered.append(&mut from[column]);
    }
    ordered
}
