#!/usr/bin/perl
# Cache::Memcached::Fast over the key-value commands: PORT.
use strict;
use warnings;
use Cache::Memcached::Fast;

my $steps = 0;

sub check {
    my ($name, $got, $wanted) = @_;
    my ($left, $right) = map { defined $_ ? $_ : 'undef' } ($got, $wanted);
    die sprintf("Cache::Memcached::Fast: %s: %.200s, and not %.200s\n", $name, $left, $right) if $left ne $right;
    $steps++;
}

sub listed {
    my ($values) = @_;
    return join ' ', map { "$_=" . (defined $values->{$_} ? $values->{$_} : 'undef') } sort keys %$values;
}

my $client = Cache::Memcached::Fast->new({ servers => ["127.0.0.1:$ARGV[0]"], io_timeout => 5, connect_timeout => 5 });
check('set', $client->set('a', 'one'), 1);
check('get', $client->get('a'), 'one');
check('set of an object', $client->set('object', { list => [1, 2, 3] }), 1);
check('get of an object', join(',', @{ $client->get('object')->{list} }), '1,2,3');
check('add', $client->add('a', 'two'), '');
check('replace', $client->replace('a', 'three'), 1);
check('append', $client->append('a', '!'), 1);
check('prepend', $client->prepend('a', '>'), 1);
check('get, behind both', $client->get('a'), '>three!');
my $held = $client->gets('a');
check('gets', $held->[1], '>three!');
check('cas', $client->cas('a', $held->[0], 'four'), 1);
check('cas with an old unique', $client->cas('a', $held->[0], 'five'), '');
my %many = map { ("m$_", "value $_") } 0 .. 199;
check('set_multi', listed(scalar $client->set_multi(map { [$_, $many{$_}] } keys %many)), join ' ', map { "$_=1" } sort keys %many);
check('get_multi', listed($client->get_multi(keys %many)), listed(\%many));
my @gone = grep { /[02468]$/ } keys %many;
check('delete_multi', listed(scalar $client->delete_multi(@gone)), join ' ', map { "$_=1" } sort @gone);
delete @many{@gone};
check('get_multi, half of them gone', listed($client->get_multi(keys %many, @gone)), listed(\%many));
check('set of a number', $client->set('n', 41), 1);
check('incr', $client->incr('n'), 42);
check('decr', $client->decr('n', 50) + 0, 0);
check('incr of no item', $client->incr('none'), '');
check('touch', $client->touch('a', 100), 1);
check('touch of no item', $client->touch('none', 100), '');
check('delete', $client->delete('a'), 1);
check('delete of no item', $client->delete('a'), '');
check('get of no item', $client->get('a'), undef);
my $large = join('', map { chr } 0 .. 255) x 4000;
check('set of 1,024,000 bytes', $client->set('large', $large), 1);
check('get of 1,024,000 bytes', $client->get('large') eq $large, 1);
# In void context it sends noreply.
$client->set('quiet', 'x');
check('get behind a set without a reply', $client->get('quiet'), 'x');
check('server_versions', listed(scalar $client->server_versions), "127.0.0.1:$ARGV[0]=arcus-profile-2");
# What this server leaves out: this client sends flush_all with a delay always, of 0 where none is given. It tells no server that did it.
check('flush_all', listed(scalar $client->flush_all), '');
print "  flush_all, which is sent with a delay of 0: no server is told to have done it\n";
check('get behind it', $client->get('quiet'), 'x');
print "Cache::Memcached::Fast: $steps steps\nok\n";
