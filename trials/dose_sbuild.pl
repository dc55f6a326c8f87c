#!/usr/bin/perl
# Runs sbuild's own explain_bd_uninstallable, taken out of its module as it stands, with a session that starts its commands here:
#     dose_sbuild.pl Sbuild/Build.pm FOLDER PACKAGES-FILE.. DUMMY-FILE
# Its report goes to standard output; the commands that it starts, and whether it is content, to standard error.
use strict;
use warnings;
use File::Copy;
use IO::File;

package Mock;
sub new { my ($class, %values) = @_; return bless {%values}, $class }
sub get { my ($self, $key) = @_; return $self->{$key} }
sub get_conf {
    my ($self, $key) = @_;
    return { BD_UNINSTALLABLE_EXPLAINER => 'dose3', HOST_ARCH => 'amd64', BUILD_ARCH => 'amd64', BUILD_USER => 'root' }->{$key};
}
sub log_error { print STDERR "E: $_[1]" }
sub log_info { print STDERR "I: $_[1]" }
sub get_sbuild_dummy_pkg_name { return "sbuild-build-depends-$_[1]-dummy" }
sub add_dependencies { return 1 }
sub install_deps { return 1 }
sub pipe_command {
    my ($self, $options) = @_;
    my @command = @{ $options->{COMMAND} };
    print STDERR "RUN: @command\n" unless $command[0] =~ /apt-helper/;
    @command = ('cat', $main::list) if $command[0] eq 'apt-get';
    @command = ('cat', $command[2]) if $command[0] =~ /apt-helper/;
    open(my $pipe, ($options->{PIPE} // '') eq 'out' ? '|-' : '-|', @command) or return;
    return $pipe;
}

package main;
my ($module, $folder, @files) = @ARGV;
our $list = "$folder/list";
open(my $names, '>', $list) or die "$list: $!";
print $names "$_\n" for @files;
close $names;
my $text = do { local $/; open(my $file, '<', $module) or die "$module: $!"; <$file> };
$text =~ /^(sub explain_bd_uninstallable \{.*?^\})/ms or die "$module has no explain_bd_uninstallable";
eval "package Run; our \@ISA = ('Mock'); $1 1;" or die $@;
my $self = bless { 'Dependency Resolver' => Mock->new, Session => Mock->new }, 'Run';
my $content = $self->explain_bd_uninstallable;
print STDERR 'explain_bd_uninstallable: ', ($content ? 'content' : 'failed'), "\n";
exit($content ? 0 : 1);
