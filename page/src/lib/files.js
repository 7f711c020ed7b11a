// Files: chosen, read, and saved.

export async function bytesOfFile(file) {
  return new Uint8Array(await file.arrayBuffer());
}

// A browser saves what a link is followed to, and chooses files for a field that is clicked: for
// both there is no other way.
const follow = (link) => link.click();

export const chooseFile = (field) => follow(field);

export function saveAs(name, bytes, type = 'text/plain') {
  const link = document.createElement('a');
  link.href = URL.createObjectURL(new Blob([bytes], { type }));
  link.download = name;
  follow(link);
  setTimeout(() => URL.revokeObjectURL(link.href), 10000);
}
