//! One report that has every word of the view: the gate's input for the program.

/// Two functions over four globals. The first uses each kind of fact and the largest numbers, the second says none to everything.
pub fn sample() -> Vec<u8> {
    let mut body = vec![1];
    put(&mut body, &[4, 2]);

    put(&mut body, &[2_047]);
    body.extend([15, 1]);
    put(&mut body, &[4, 2, 3]);
    body.extend([15, 0, 6, 1]);
    put(&mut body, &[0, 3, 2, 1]);
    for (tags, ends) in [([0, 1], [3, 63]), ([1, 0], [0, 2]), ([1, 1], [0, 0])] {
        body.extend(tags);
        put(&mut body, &ends);
    }
    for (origin, requirements, count, global) in [
        (65_535, 0, 0, 65_535),
        (0, 1, 1, 3),
        (2_047, 6, 4_294_967_295, 0),
        (1, 8, 65_536, 65_535),
    ] {
        put(&mut body, &[origin]);
        body.push(requirements);
        body.extend(u32::to_be_bytes(count));
        put(&mut body, &[global]);
    }

    put(&mut body, &[65_535]);
    body.extend([0; 12]);

    let mut bytes = (body.len() as u32).to_be_bytes().to_vec();
    bytes.extend(body);
    bytes
}

fn put(bytes: &mut Vec<u8>, numbers: &[u16]) {
    for number in numbers {
        bytes.extend(number.to_be_bytes());
    }
}
