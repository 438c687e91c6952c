# dckit's library for package scripts in Perl.
package Debconf::Client::ConfModule;
use strict;
use base 'Exporter';
use IO::Handle;

my @COMMANDS = qw(version capb settitle title input beginblock endblock go clear get set reset subst fget fset metaget register unregister purge
    progress x_loadtemplatefile x_save info data exist visible previous_module);
our @EXPORT_OK = (@COMMANDS, 'stop');
our %EXPORT_TAGS = (all => [@EXPORT_OK]);
our $AUTOLOAD;

# Where commands go: standard output, but in a program of a script that had it put to descriptor 3.
my $commands = \*STDOUT;

# Makes sure that a frontend serves this program: where none does, one is started with it, in its place.
sub import {
    if (!$ENV{DEBIAN_HAS_FRONTEND}) {
        exec '/usr/share/debconf/frontend', $0, @ARGV or die "/usr/share/debconf/frontend: $!\n";
    }
    if ($ENV{DEBCONF_REDIR} && $commands == \*STDOUT) {
        open my $third, '>&=', 3 or die "descriptor 3: $!\n";
        $commands = $third;
    }
    $commands->autoflush(1);
    __PACKAGE__->export_to_level(1, @_);
}

# The text that was escaped.
sub unescaped {
    my ($text) = @_;
    $text =~ s/\\(.)/$1 eq 'n' ? "\n" : $1/ge;
    return $text;
}

# The code and the text of the reply to a command. Code 1 says that the text came escaped, and is 0 once it is put back.
sub reply_to {
    print {$commands} join(' ', @_) . "\n";
    my $line = <STDIN>;
    return (1, '') if !defined $line;
    chomp $line;
    my ($code, $text) = split /[ \t]/, $line, 2;
    $text = '' if !defined $text;
    return $code eq '1' ? (0, unescaped($text)) : ($code, $text);
}

# The same, where scripts ask by a flag of its own whether a question has its default, which is the reverse of `seen`.
sub ask {
    my ($command, @words) = @_;
    my %other = (true => 'false', false => 'true');
    my $turned = $command =~ /^f[gs]et$/ && @words > 1 && $words[1] eq 'isdefault';
    if ($turned) {
        $words[1] = 'seen';
        $words[2] = $other{ $words[2] } // $words[2] if @words > 2;
    }
    my ($code, $text) = reply_to(uc $command, @words);
    $text = $other{$text} // $text if $turned && $code eq '0';
    return wantarray ? ($code, $text) : $text;
}

for my $name (@COMMANDS) {
    no strict 'refs';
    *$name = sub { return ask($name, @_) };
}

# A command of a name that isn't known here.
sub AUTOLOAD {
    my $name = $AUTOLOAD =~ s/.*:://r;
    return ask($name, @_);
}

sub DESTROY { }

# STOP has no reply.
sub stop {
    print {$commands} "STOP\n";
    return;
}

1;
