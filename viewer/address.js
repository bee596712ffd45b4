// What is shown stands in the address after #, so that the address is a link to it.

// The link to an image, and to what is seen of it.
export function linkOf(parameters) {
  return `#${new URLSearchParams(parameters)}`;
}

// What the address asks for: the name of an image, and numbers, NaN where they aren't there.
export function askedFor() {
  const asked = new URLSearchParams(location.hash.slice(1));
  const numbers = ['zoom', 'x', 'y', 'low', 'high'].map((name) => {
    const text = asked.get(name);
    return [name, text ? Number(text) : NaN];
  });
  return { name: asked.get('image'), ...Object.fromEntries(numbers) };
}
