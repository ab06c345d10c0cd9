//! Prints every refusal, a line each: its number, a tab, and what it says.

fn main() {
    for refusal in kahopiru::Refusal::ALL {
        println!("{}\t{refusal}", refusal.number());
    }
}
