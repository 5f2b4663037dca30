<?php
// php-memcached, a client over libmemcached, with the text protocol: PORT.

$steps = 0;

function check($name, $got, $wanted)
{
    global $steps;
    if ($got !== $wanted) {
        fwrite(STDERR, sprintf("php-memcached: %s: %.200s, and not %.200s\n", $name, var_export($got, true), var_export($wanted, true)));
        exit(1);
    }
    $steps++;
}

$client = new Memcached();
$client->setOption(Memcached::OPT_BINARY_PROTOCOL, false);
$client->addServer('127.0.0.1', (int)$argv[1]);

check('set', $client->set('a', 'one'), true);
check('get', $client->get('a'), 'one');
check('set of an array', $client->set('object', ['list' => [1, 2, 3]]), true);
check('get of an array', $client->get('object'), ['list' => [1, 2, 3]]);
check('set of a float', $client->set('float', 1.5), true);
check('get of a float', $client->get('float'), 1.5);
check('add', $client->add('a', 'two'), false);
check('add: why', $client->getResultCode(), Memcached::RES_NOTSTORED);
check('replace', $client->replace('a', 'three'), true);
$client->setOption(Memcached::OPT_COMPRESSION, false);
check('append', $client->append('a', '!'), true);
check('prepend', $client->prepend('a', '>'), true);
check('get, behind both', $client->get('a'), '>three!');
$held = $client->get('a', null, Memcached::GET_EXTENDED);
check('gets', $held['value'], '>three!');
check('cas', $client->cas($held['cas'], 'a', 'four'), true);
check('cas with an old unique', $client->cas($held['cas'], 'a', 'five'), false);
check('cas: why', $client->getResultCode(), Memcached::RES_DATA_EXISTS);
$many = [];
for ($i = 0; $i < 200; $i++) {
    $many["m$i"] = "value $i";
}
check('setMulti', $client->setMulti($many), true);
check('getMulti', $client->getMulti(array_keys($many), Memcached::GET_PRESERVE_ORDER), $many);
check('deleteMulti', array_unique(array_values($client->deleteMulti(array_slice(array_keys($many), 0, 100)))), [true]);
check('getMulti, half of them gone', $client->getMulti(array_keys($many)), array_slice($many, 100));
check('set of a number', $client->set('n', 41), true);
check('increment', $client->increment('n'), 42);
check('decrement', $client->decrement('n', 50), 0);
check('increment of no item', $client->increment('none'), false);
check('touch', $client->touch('a', 100), true);
check('touch of no item', $client->touch('none', 100), false);
check('delete', $client->delete('a'), true);
check('delete of no item', $client->delete('a'), false);
check('delete: why', $client->getResultCode(), Memcached::RES_NOTFOUND);
check('get of no item', $client->get('a'), false);
$large = str_repeat("\x00\r\n\xff", 256000);
check('set of 1,024,000 bytes', $client->set('large', $large), true);
check('get of 1,024,000 bytes', $client->get('large'), $large);
check('getVersion fails, since the answer has no numbers', $client->getVersion(), false);
printf("  getVersion: %s\n", $client->getResultMessage());
// What this server leaves out, with its answer, as this client tells it.
check('flush with a delay', $client->flush(10), false);
printf("  flush with a delay: %s\n", $client->getResultMessage());
check('getStats', $client->getStats(), false);
printf("  getStats: %s\n", $client->getResultMessage());
$client->resetServerList();
$client->addServer('127.0.0.1', (int)$argv[1]);
check('get behind it', $client->get('large'), $large);
check('flush', $client->flush(), true);
check('get behind it', $client->get('large'), false);
printf("php-memcached: %d steps\nok\n", $steps);
