# The old name of Debconf::Client::ConfModule.
package Debian::DebConf::Client::ConfModule;
use strict;
use Debconf::Client::ConfModule ();

sub import {
    shift;
    @_ = ('Debconf::Client::ConfModule', @_);
    goto &Debconf::Client::ConfModule::import;
}

# A command by its name under the old one.
sub AUTOLOAD {
    my $name = our $AUTOLOAD =~ s/.*:://r;
    @_ = ($name, @_);
    goto &Debconf::Client::ConfModule::ask;
}

sub DESTROY { }

1;
