"""What only proposes: pieces, joined towns, moved sites. A wrong proposal is refused by a test, or charged."""
