# Shows text on a terminal so that nothing in it acts there or hides: reads standard input, and writes it to standard output. What is
# printable stays, in ASCII and in UTF-8, and so do tabs and line ends. All else is shown reversed by its number: control characters,
# characters of format and direction and those that are invisible, private and unassigned ones as <U+202E>, and bytes that are not
# UTF-8 as \x9b.
use strict;
use warnings;

binmode STDIN;
binmode STDOUT;
$| = 1;

# one character in UTF-8, of two to four bytes
my $more = qr/[\x80-\xbf]/;
my $character = qr/
      [\xc2-\xdf] $more
    | \xe0 [\xa0-\xbf] $more
    | [\xe1-\xec\xee\xef] $more{2}
    | \xed [\x80-\x9f] $more
    | \xf0 [\x90-\xbf] $more{2}
    | [\xf1-\xf3] $more{3}
    | \xf4 [\x80-\x8f] $more{2}
/x;
# what may be the front of one
my $front = qr/[\xc2-\xf4] $more{0,2} \z/x;

sub reversed { return "\e[7m$_[0]\e[27m" }

my %known;

# How a character is shown, which is known from its bytes.
sub shown_character {
    my ($bytes) = @_;
    return $known{$bytes} //= do {
        my $text = $bytes;
        utf8::decode($text);
        my $is_seen = $text =~ /\A[\p{L}\p{M}\p{N}\p{P}\p{S}\p{Zs}]\z/ && $text !~ /\p{Default_Ignorable_Code_Point}/;
        $is_seen ? $bytes : reversed(sprintf "<U+%04X>", ord $text);
    };
}

# How bytes are shown that hold no piece of a character at their end.
sub shown {
    my ($bytes) = @_;
    $bytes =~ s/($character)|([\x80-\xff])|([\x00-\x08\x0b-\x1f\x7f])/
        defined $1 ? shown_character($1) : defined $2 ? reversed(sprintf "\\x%02x", ord $2) : reversed(sprintf "<U+%04X>", ord $3)/ge;
    return $bytes;
}

my $kept = "";
while (sysread STDIN, my $read, 65536) {
    $read = $kept . $read;
    # a piece of a character waits for the rest
    $kept = $read =~ s/($front)// ? $1 : "";
    print shown($read) or exit 1;
}
print shown($kept) or exit 1;
