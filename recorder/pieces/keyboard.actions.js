click('#on');
await wait(0.2);
for (const letter of 'asdfg') {
  await key(letter, 0.3);
  await wait(0.1);
}
input('#level', 0.2);
keyDown('a');
keyDown('d');
await wait(1);
keyUp('a');
keyUp('d');
input('#level', 0.6);
await key('k', 0.5);
