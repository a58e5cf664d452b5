//! A caller of the desk's entry in Rust. A question is asked by numbers, and what comes of it is printed as the program keysheet does with `skipped`.
//!
//!   rustc --edition 2021 -L native=target/staticlib -o desk_callers/rust/target/desk desk_callers/rust/desk.rs

#[link(name = "desk", kind = "static")]
extern "C" {
    /// The entry; include/desk.h says what its caller must keep.
    fn desk_draw(
        kind: u32,
        a: u32,
        b: u32,
        modulus: u32,
        words: *const u8,
        words_length: usize,
        output: *mut u8,
        output_length: usize,
        place: *mut usize,
        skipped_words: *mut u64,
        skipped_bytes: *mut u64,
    ) -> u32;
}

const MAX_COEFFICIENTS: usize = 4096;

/// A question by numbers; modulus 0 asks for signed coefficients.
struct Question {
    kind: u32,
    a: u32,
    b: u32,
    modulus: u32,
    coefficients: usize,
}

/// What a success hands back.
struct Drawn {
    coefficients: Vec<i64>,
    place: usize,
    skipped_words: u64,
    skipped_bytes: u64,
}

/// Draws a question from the words, from a place on; the error is the number of the refusal.
fn draw(question: &Question, words: &[u32], mut place: usize) -> Result<Drawn, u32> {
    let words: Vec<u8> = words.iter().flat_map(|word| word.to_le_bytes()).collect();
    // One coefficient more than the most is refused as any greater number is.
    let mut output = vec![0u8; 8 * question.coefficients.min(MAX_COEFFICIENTS + 1)];
    let (mut skipped_words, mut skipped_bytes) = (0, 0);
    // SAFETY: the pointers are those of live slices and variables that share nothing; that of an empty slice is not null either.
    let number = unsafe {
        desk_draw(
            question.kind,
            question.a,
            question.b,
            question.modulus,
            words.as_ptr(),
            words.len(),
            output.as_mut_ptr(),
            output.len(),
            &mut place,
            &mut skipped_words,
            &mut skipped_bytes,
        )
    };
    if number != 0 {
        return Err(number);
    }
    let coefficients = output.chunks_exact(8).map(|bytes| i64::from_le_bytes(bytes.try_into().unwrap())).collect();
    Ok(Drawn { coefficients, place, skipped_words, skipped_bytes })
}

/// Prints the number, the words used so far and n, then the coefficients, then what was skipped; for a refusal its number and zeros.
fn print(result: Result<Drawn, u32>) {
    match result {
        Ok(drawn) => {
            let texts: Vec<String> = drawn.coefficients.iter().map(i64::to_string).collect();
            println!(
                "0 {} {}\n{}\n{} {}",
                drawn.place,
                texts.len(),
                texts.join(" "),
                drawn.skipped_words,
                drawn.skipped_bytes
            );
        }
        Err(number) => println!("{number} 0 0"),
    }
}

fn main() {
    // The question of examples/example.sheet: sparse ternary.
    print(draw(&Question { kind: 2, a: 0, b: 0, modulus: 0, coefficients: 4 }, &[0xe4], 0));
    // That of examples/skipped.sheet: a composition of two minus ones and one 1, here as residues modulo 7 and after one word of another's.
    let words = [0, 0xffff_ffff, 0xffff_ffff, 1, 0xffff_fffc, 0xffff_ffff, 0xffff_fffb];
    print(draw(&Question { kind: 8, a: 2, b: 1, modulus: 7, coefficients: 6 }, &words, 1));
    // Five ones among four coefficients: refused by 7.
    print(draw(&Question { kind: 4, a: 5, b: 0, modulus: 0, coefficients: 4 }, &[0xe4], 0));
}
