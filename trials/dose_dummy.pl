#!/usr/bin/perl
# Prints the stanza of the dummy package by which sbuild asks for what a source build-depends on, as Sbuild/ResolverBase.pm makes it:
#     dose_dummy.pl SOURCES-FILE NAME ARCH
use strict;
use warnings;
use Dpkg::Deps qw(deps_parse deps_iterate);

my ($file, $name, $arch) = @ARGV;
my $stanza;
{
    local $/ = '';
    open(my $sources, '<', $file) or die "$file: $!";
    while (<$sources>) {
        $stanza = $_ if /^Package: \Q$name\E$/m && !/^Extra-Source-Only: yes/m;
    }
}
die "$file has no source $name\n" unless $stanza;
my %value;
for my $field (map { my $kind = $_; map { "$kind$_" } '', '-Indep', '-Arch' } qw(Build-Depends Build-Conflicts)) {
    $value{$field} = $1 if $stanza =~ /^$field:(.*(?:\n[ \t].*)*)/m;
}
my %how = (reduce_arch => 1, host_arch => $arch, build_arch => $arch, build_dep => 1, reduce_profiles => 1, build_profiles => []);
my $needs = deps_parse(join(', ', 'build-essential', grep { defined } @value{qw(Build-Depends Build-Depends-Arch Build-Depends-Indep)}), %how);
my $conflicts = deps_parse(join(', ', grep { defined } @value{qw(Build-Conflicts Build-Conflicts-Arch Build-Conflicts-Indep)}), %how, union => 1);
for my $side ($needs, $conflicts) {
    deps_iterate($side, sub { $_[0]{archqual} = undef if ($_[0]{archqual} // '') eq 'native'; 1 });
}
# Of alternatives those count that have the first one's name.
my $first = Dpkg::Deps::AND->new;
for my $group ($needs->get_deps) {
    my ($head, @rest) = $group->get_deps;
    my $kept = Dpkg::Deps::OR->new;
    $kept->add($head);
    for my $atom (@rest) {
        last if $atom->{package} ne $head->{package};
        $kept->add($atom);
    }
    $first->add($kept);
}
print "Package: sbuild-build-depends-main-dummy\nVersion: 0.invalid.0\nArchitecture: $arch\nDepends: $first\n";
print "Conflicts: $conflicts\n" if "$conflicts" ne '';
print "\n";
