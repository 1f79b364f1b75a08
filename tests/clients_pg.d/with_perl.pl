# DBD::Pg: nothing to say, as AutoCommit is on. What it counts of UPDATE and DELETE is not to be trusted.
use strict;
use warnings;
use utf8;
use DBI;
use Encode qw(decode);
use List::Util qw(sum);
binmode(STDOUT, ":encoding(UTF-8)");

my ($port, $user, $odd) = map { decode("UTF-8", $_) } @ARGV;
my $table = "t_$user";

sub said { print join("\t", @_), "\n"; }

sub connected {
    my ($user, $password) = @_;
    return DBI->connect("dbi:Pg:host=127.0.0.1;port=$port;dbname=x", $user, $password // "pw-of-$user",
        {RaiseError => 0, PrintError => 0, AutoCommit => 1});
}

sub rows {
    my ($on, $statement, @values) = @_;
    return map { map { $_ // "None" } @$_ } @{$on->selectall_arrayref($statement, undef, @values) // []};
}

sub code {
    my ($on, $statement, @values) = @_;
    my $made = $on->prepare($statement) or return $on->state;
    return $made->execute(@values) ? "nothing raised" : $on->state;
}

my $own = connected($user) or die $DBI::errstr;
my $insert = "INSERT INTO $table VALUES (?, ?)";
my $wage = "SELECT wage FROM $table WHERE name = ?";
sub change { my ($step, @words) = @_; said($step, $own->do(@words) ? "done" : $own->state); }

said("version", rows($own, "SHOW server_version"));
change("create", "CREATE TABLE $table (name TEXT, wage INTEGER)");
said("insert", $own->do($insert, undef, "Bo", 7));
said("insert odd", $own->do($insert, undef, $odd, "-9223372036854775808"));
said("insert max", $own->do($insert, undef, "max", "9223372036854775807"));
change("update", "UPDATE $table SET wage = ? WHERE name = ?", undef, 8, "Bo");
my $made = $own->prepare($insert);
said("several", map { $made->execute("m$_", $_) } 0 .. 2);
$made = undef;
change("delete", "DELETE FROM $table WHERE name = ?", undef, "m1");
$made = $own->prepare("SELECT * FROM $table");
$made->execute;
said("columns", map { ($made->{NAME}[$_], $made->{pg_type}[$_]) } 0, 1);
$made->finish;
said("rows", rows($own, "SELECT * FROM $table"));
said("filter", rows($own, "SELECT name FROM $table WHERE wage > ?", 0));
$made = $own->prepare($wage);
said("ten times", map { $made->execute("max"); ($made->fetchrow_array)[0] } 1 .. 10);
$made = undef;
my @many = rows($own, "SELECT x FROM thousands");
said("thousands", scalar(@many), sum(@many));
for (split /\n/, $ENV{REFUSED}) {
    my ($step, $statement) = split /\t/;
    said($step, code($own, $statement));
}
said("null", code($own, $insert, undef, 1));
said("line feed", code($own, $insert, "a\nb", 1));
said("no number", code($own, $insert, "x", "seven"));
said("goes on", rows($own, $wage, "Bo"));
$own->begin_work;
said("in a block", code($own, $insert, "in a block", 1), code($own, "SELECT * FROM few"));
$own->rollback;
$own->begin_work;
said("a block of queries", rows($own, "SELECT * FROM few"));
$own->commit;
said("ping", $own->ping ? "yes" : "no");
change("grant", "GRANT SELECT ON $table TO reader");
my $there = connected("reader");
said("two users", rows($own, $wage, "Bo"), rows($there, $wage, "Bo"), code($there, "DELETE FROM $table"));
$there->disconnect;
change("revoke", "REVOKE SELECT ON $table FROM reader");
said("export", rows($own, "EXPORT 1"));
said("checkpoints", rows($own, "CHECKPOINTS"));
said("wrong password", connected($user, "wrong") ? "none" : $DBI::errstr =~ s/\s+/ /gr);
$own->disconnect;
