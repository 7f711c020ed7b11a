// Actions of a lecturer in hall mode, by key or clicker: blank the screen, fill it, and leave.

import { texts } from '../texts/texts.js';
import { looks } from '../model/looks.js';
import { tell } from '../view/notice.js';

export class Hall {
  constructor(page) {
    this.page = page;
    this.isBlank = false;
  }

  // The next key or click shows the page again.
  blank(isBlank) {
    this.isBlank = isBlank;
    document.body.classList.toggle('blank', isBlank);
  }

  async fillScreen() {
    try {
      if (document.fullscreenElement) await document.exitFullscreen();
      else await document.documentElement.requestFullscreen();
    } catch {
      tell(texts.hall.noFullScreen);
    }
  }

  leave() {
    this.page.lecture.end();
    if (looks.hall) this.page.toggleHall();
  }
}
