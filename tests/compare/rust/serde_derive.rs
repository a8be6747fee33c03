//! Stand-in for the crate `serde_derive`: two derives that derive nothing.
//!
//! Imitates `#[derive(Serialize, Deserialize)]` on `BufferPosition`, `OwnedRecord` and `RecordSet` in fasta.rs, which no compared call uses.
//! Nothing rests on it.
extern crate proc_macro;
use proc_macro::TokenStream;

#[proc_macro_derive(Serialize)]
pub fn serialize(_: TokenStream) -> TokenStream {
    TokenStream::new()
}

#[proc_macro_derive(Deserialize)]
pub fn deserialize(_: TokenStream) -> TokenStream {
    TokenStream::new()
}
