// Hall mode in a class: the quiz, a black screen, and how much of code and memory is visible.

const isHall = () => document.body.classList.contains('hall');

// The question of the quiz, or false if part of it is off the screen.
function asked() {
  const form = byId('quiz-form');
  return form && all('input, button', form).every((one) => inside(rect(one), screenBox()))
    && { move: Number(form.dataset.move), kind: form.dataset.kind };
}

// Whether the whole screen is black.
function isBlack() {
  const { backgroundColor, position } = getComputedStyle(document.body, '::after');
  return position === 'fixed' && backgroundColor === 'rgb(0, 0, 0)';
}

// How many lines the code has, and how many of them are visible.
function code() {
  const box = rect(byId('code-lines'));
  const lines = all('#code-lines .code-line').map(rect);
  const isSeen = ({ top, bottom }) => top >= box.top - 1 && bottom <= box.bottom + 1;
  return [lines.length, lines.filter(isSeen).length];
}

// The texts of the memory picture that are cut or partly out of view.
function cut() {
  const box = rect(byId('memory-picture'));
  return all('#memory-picture text').filter((one) => !inside(rect(one), box)
    || one.lastChild.textContent.endsWith('…')).map((one) => one.textContent);
}

// The name and the text of the file with the answers.
async function saved(name) {
  byId('quiz-name').value = name;
  const { name: file, bytes } = await caught(() => click('[data-save-quiz]'));
  return [file, new TextDecoder().decode(bytes)];
}

// Whether the history has this name, which a browser keeps even if it is ended.
const isNoted = (name) => JSON.stringify(history.state).includes(name);

const today = () => new Date().toISOString().slice(0, 10);
