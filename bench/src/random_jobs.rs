//! Random jobs from a fixed seed, whole and damaged.

/// The generator SplitMix64.
pub struct Random(u64);

impl Random {
    pub fn new(seed: u64) -> Random {
        Random(seed)
    }

    fn next(&mut self) -> u64 {
        self.0 = self.0.wrapping_add(0x9E37_79B9_7F4A_7C15);
        let z = (self.0 ^ (self.0 >> 30)).wrapping_mul(0xBF58_476D_1CE4_E5B9);
        let z = (z ^ (z >> 27)).wrapping_mul(0x94D0_49BB_1331_11EB);
        z ^ (z >> 31)
    }

    pub fn below(&mut self, n: u64) -> u64 {
        self.next() % n
    }

    fn between(&mut self, least: i64, most: i64) -> i64 {
        least + self.below((most - least + 1) as u64) as i64
    }

    fn one_in(&mut self, n: u64) -> bool {
        self.below(n) == 0
    }

    pub fn pick<T: Copy>(&mut self, from: &[T]) -> T {
        from[self.below(from.len() as u64) as usize]
    }
}

/// A job in the making. `slips` is how seldom a number is out of its range: one in so many, or never for 0.
pub struct Maker<'a> {
    random: &'a mut Random,
    slips: u64,
    count: i64,
    bytes: Vec<u8>,
}

impl Maker<'_> {
    fn slip(&mut self) -> bool {
        self.slips > 0 && self.random.one_in(self.slips)
    }

    fn field(&mut self, tag: u8, body: &[u8]) {
        self.bytes.push(tag);
        self.bytes.extend((body.len() as u16).to_be_bytes());
        self.bytes.extend(body);
    }

    fn place(&mut self, most: i64) -> [u8; 2] {
        let place = if self.slip() {
            self.random.pick(&[most + 1, most + 2, 65_535]).max(0)
        } else {
            self.random.between(0, most.max(0))
        };
        (place as u16).to_be_bytes()
    }

    fn coordinate(&mut self, most: i64) -> [u8; 4] {
        let slips = [
            most + 1,
            -most - 1,
            i64::from(i32::MAX),
            i64::from(i32::MIN),
        ];
        let coordinate = if self.slip() {
            self.random.pick(&slips)
        } else {
            let near = self.random.pick(&[most, most / 50]);
            self.random.between(-near, near)
        };
        (coordinate as i32).to_be_bytes()
    }

    fn rate(&mut self, least: i64, most: i64) -> [u8; 2] {
        let rate = if self.slip() {
            self.random.pick(&[(least - 1).max(0), most + 1, 65_535])
        } else {
            let highest = self.random.pick(&[most, most / 20]);
            self.random.between(least, highest)
        };
        (rate as u16).to_be_bytes()
    }

    fn position(&mut self) -> Vec<u8> {
        [100_000, 100_000, 10_000]
            .iter()
            .flat_map(|&most| self.coordinate(most))
            .collect()
    }

    fn move_at(&mut self, place: [u8; 2]) -> Vec<u8> {
        let mut body = place.to_vec();
        body.extend(self.position());
        for (least, most) in [(1, 2000), (1, 5000), (0, 10_000)] {
            body.extend(self.rate(least, most));
        }
        body
    }

    fn insert(&mut self) {
        let place = self.place(self.count);
        let body = self.move_at(place);
        self.field(0x01, &body);
        self.count += 1;
    }

    fn replace(&mut self) {
        let place = self.place(self.count - 1);
        let body = self.move_at(place);
        self.field(0x07, &body);
    }

    fn delete(&mut self) {
        let place = self.place(self.count - 1);
        self.field(0x02, &place);
        self.count = (self.count - 1).max(0);
    }

    fn set_override(&mut self) {
        let (mut i, mut j) = (self.place(self.count), self.place(self.count));
        if (i > j) != self.slip() {
            (i, j) = (j, i);
        }
        let percent = if self.slip() {
            self.random.pick(&[0, 9, 201, 255])
        } else {
            self.random.between(10, 200)
        };
        self.field(0x03, &[i[0], i[1], j[0], j[1], percent as u8]);
    }

    fn junction(&mut self) {
        let place = self.place(self.count);
        let start = if self.slip() {
            self.random.pick(&[100_000_001, 1 << 31, u32::MAX])
        } else {
            let most = self.random.pick(&[0, 0, 4000, 4_000_000, 100_000_000]);
            self.random.between(0, most) as u32
        };
        let mut body = place.to_vec();
        body.extend(start.to_be_bytes());
        self.field(0x04, &body);
    }

    fn start(&mut self) {
        let body = self.position();
        self.field(0x08, &body);
    }

    fn any_field(&mut self) {
        match self.random.below(27) {
            0..=8 => self.insert(),
            9..=11 => self.replace(),
            12..=13 => self.delete(),
            14..=16 => self.set_override(),
            17..=25 => self.junction(),
            _ => self.start(),
        }
    }

    /// A last block along the x axis whose corner lets every speed through.
    fn straight(&mut self, place: i64, x: i64) {
        let acceleration = self.random.between(1, 100);
        let mut body = (place as u16).to_be_bytes().to_vec();
        for coordinate in [x, 0, 0] {
            body.extend((coordinate as i32).to_be_bytes());
        }
        for rate in [acceleration, 5000, 10_000] {
            body.extend((rate as u16).to_be_bytes());
        }
        self.field(0x01, &body);
        self.count += 1;
    }

    /// Overrides a few blocks to between a tenth and the whole of their feed.
    fn slow_down(&mut self) {
        let i = self.random.between(0, self.count - 1);
        let j = (i + self.random.between(1, 3)).min(self.count);
        let percent = self.random.between(10, 100) as u8;
        let mut body = (i as u16).to_be_bytes().to_vec();
        body.extend((j as u16).to_be_bytes());
        body.push(percent);
        self.field(0x03, &body);
    }

    fn fast_question(&mut self) {
        let place = self.place(self.count);
        let most = self.random.pick(&[100_000, 2_000_000, 25_000_000]);
        let start = self.random.between(0, most) as u32;
        let mut body = place.to_vec();
        body.extend(start.to_be_bytes());
        self.field(0x04, &body);
    }

    fn sealed(mut self) -> Vec<u8> {
        let byte = self.bytes.iter().fold(0, |all, byte| all ^ byte);
        self.field(0x7F, &[byte]);
        self.bytes
    }
}

/// A job of so many fields, of which `first_inserts` fill the plan.
pub fn whole_job(random: &mut Random, first_inserts: usize, fields: usize, slips: u64) -> Vec<u8> {
    let mut maker = Maker {
        random,
        slips,
        count: 0,
        bytes: Vec::new(),
    };
    for k in 0..fields {
        if k < first_inserts {
            maker.insert();
        } else {
            maker.any_field();
        }
    }
    maker.sealed()
}

/// A job that asks where fast plans cannot be braked in time. Its blocks are short and fast and brake little, and a few
/// of them are slow, so that the first blocked junction may lie anywhere.
pub fn braking_job(random: &mut Random) -> Vec<u8> {
    let mut maker = Maker {
        random,
        slips: 0,
        count: 0,
        bytes: Vec::new(),
    };
    let blocks = maker.random.between(2, 256);
    let mut x = 0;
    for place in 0..blocks {
        x += maker.random.between(0, 300);
        maker.straight(place, x);
    }
    for _ in 0..maker.random.below(4) {
        maker.slow_down();
    }
    for _ in 0..30 {
        maker.fast_question();
    }
    maker.sealed()
}

fn flip_bits(random: &mut Random, job: &mut [u8]) {
    for _ in 0..=random.below(3) {
        let at = random.below(job.len() as u64) as usize;
        job[at] ^= 1 << random.below(8);
    }
}

/// Another byte in the head of the first field, where it breaks its tag or its length.
fn spoil_head(random: &mut Random, job: &mut [u8]) {
    let at = random.below(3) as usize;
    job[at] = random.below(256) as u8;
}

/// The job with damage of one kind done to it. It needs at least four bytes, which every whole job has.
pub fn damaged(random: &mut Random, mut job: Vec<u8>) -> Vec<u8> {
    let at = random.below(job.len() as u64) as usize;
    let last = job.len() - 1;
    match random.below(8) {
        0 => job.truncate(at),
        1 => job.extend((0..=random.below(9)).map(|k| (k * 37) as u8)),
        2 => flip_bits(random, &mut job),
        3 => drop(job.remove(at)),
        4 => job.insert(at, random.below(256) as u8),
        5 => job[last] ^= 1 + random.below(255) as u8,
        6 => spoil_head(random, &mut job),
        _ => job.swap(at, last),
    }
    job
}
