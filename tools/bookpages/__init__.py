"""What the tools beside `bookfmt` share: metrics texts, listings, fonts, and faults that are told in one line."""
