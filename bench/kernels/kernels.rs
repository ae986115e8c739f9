// The sample kernels in Rust, run again and again: KERNEL SAMPLES REPEATS GAIN.. Prints a checksum of each.
use std::env;
use std::hint::black_box;

fn clamped(x: i32) -> i16 {
    x.clamp(-32768, 32767) as i16
}

#[inline(never)]
fn mix_into(sum: &mut [i32], s: &[i16]) {
    for (sum, x) in sum.iter_mut().zip(s) {
        *sum += i32::from(*x);
    }
}

#[inline(never)]
fn clamp_out(sum: &[i32], to: &mut [i16]) {
    for (to, sum) in to.iter_mut().zip(sum) {
        *to = clamped(*sum);
    }
}

#[inline(never)]
fn gain(g: i32, s: &[i16], to: &mut [i16]) {
    for (to, x) in to.iter_mut().zip(s) {
        *to = clamped((i32::from(*x) * g) >> 8);
    }
}

#[inline(never)]
fn mix2(ga: i32, gb: i32, a: &[i16], b: &[i16], to: &mut [i16]) {
    for ((to, a), b) in to.iter_mut().zip(a).zip(b) {
        *to = clamped((i32::from(*a) * ga + i32::from(*b) * gb) >> 8);
    }
}

#[inline(never)]
fn map_channels(channels: usize, list: &[u32], s: &[i16], to: &mut [i16]) {
    for (from, to) in s.chunks_exact(channels).zip(to.chunks_exact_mut(list.len())) {
        for (to, c) in to.iter_mut().zip(list) {
            *to = from[*c as usize];
        }
    }
}

#[inline(never)]
fn split(s: &[i16], left: &mut [i16], right: &mut [i16]) {
    for ((frame, left), right) in s.chunks_exact(2).zip(left).zip(right) {
        *left = frame[0];
        *right = frame[1];
    }
}

#[inline(never)]
fn peak(s: &[i16]) -> u32 {
    s.iter().map(|x| u32::from(x.unsigned_abs())).max().unwrap_or(0)
}

fn start(s: &mut [i16]) {
    let mut x: u32 = 1;
    for to in s {
        x = x.wrapping_mul(1664525).wrapping_add(1013904223);
        *to = ((x / 65536) as i32 - 32768) as i16;
    }
}

fn checksum(s: &[i16]) -> u32 {
    s.iter().fold(0, |sum: u32, x| sum.wrapping_mul(31).wrapping_add((i32::from(*x) + 32768) as u32))
}

fn run(name: &str, n: usize, repeats: u32, gains: &[i32]) -> u32 {
    let (mut a, mut b, mut c) = (vec![0i16; n], vec![0i16; n], vec![0i16; n]);
    let mut sum = vec![70000i32; n];
    start(&mut a);
    match name {
        "gain" => {
            for r in 0..repeats as usize {
                if let Some(g) = gains.get(r % 4) {
                    gain(*g, &a, &mut b);
                    gain(*g, &b, &mut a);
                }
            }
            checksum(&a)
        }
        "mix2" => {
            start(&mut c);
            for r in 0..repeats as usize {
                if let Some([ga, gb, ..]) = gains.get(r % 4..) {
                    mix2(*ga, *gb, &a, &c, &mut b);
                    mix2(*ga, *gb, &b, &c, &mut a);
                }
            }
            checksum(&a)
        }
        "mix_into" => {
            for _ in 0..repeats {
                sum.fill(0);
                mix_into(&mut sum, &a);
                if n > 1 {
                    a[0] = a[1].wrapping_add(a[0]);
                }
            }
            clamp_out(&sum, &mut a);
            checksum(&a)
        }
        "clamp_out" => {
            for _ in 0..repeats {
                clamp_out(&sum, &mut a);
                if n > 1 {
                    sum[0] = i32::from(a[1]).wrapping_add(sum[0]);
                }
            }
            checksum(&a)
        }
        "map_channels" => {
            let n = n / 2 * 2;
            let (channels, list) = black_box((2, [1, 0]));
            for _ in 0..repeats {
                map_channels(channels, &list, &a[..n], &mut b[..n]);
                map_channels(channels, &list, &b[..n], &mut a[..n]);
            }
            checksum(&a[..n])
        }
        "split" => {
            let n = n / 2;
            for _ in 0..repeats {
                split(&a[..2 * n], &mut b[..n], &mut c[..n]);
                if n > 0 {
                    a[0] = a[1].wrapping_add(a[0]);
                }
            }
            checksum(&b[..n]).wrapping_add(checksum(&c[..n]))
        }
        "peak" => {
            let mut top: u32 = 0;
            for _ in 0..repeats {
                top = top.wrapping_add(peak(&a));
                if n > 1 {
                    a[0] = a[1].wrapping_add(a[0]);
                }
            }
            top
        }
        _ => 0,
    }
}

fn main() {
    let words: Vec<String> = env::args().collect();
    let number = |i: usize| words[i].parse::<u32>().unwrap_or(0);
    let gains: Vec<i32> = words[4..].iter().map(|word| word.parse().unwrap_or(0)).collect();
    for kernel in ["gain", "mix2", "mix_into", "clamp_out", "map_channels", "split", "peak"] {
        if words[1] == "all" || words[1] == kernel {
            println!("{kernel} {}", run(kernel, number(2) as usize, number(3), &gains));
        }
    }
}
