// Fills the page with its own data.
readData()
  .then(found => {
    fill(found);
    performance.mark('ready');
  })
  .catch(error => page.append(element('p', 'wrong', String(error))));
