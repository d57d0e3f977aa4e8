(function () {
  "use strict";
  var table = document.getElementById("marks");
  var body = table.tBodies[0];
  var rows = Array.from(body.rows);
  var heads = Array.from(table.tHead.rows[0].cells);

  // What a sheet hasn't is NaN.
  function value(row, column) {
    var number = row.cells[column].getAttribute("data-value");
    return number === null ? NaN : Number(number);
  }

  // What a sheet hasn't comes last, whichever way it is sorted.
  function compared(one, other, column, sign) {
    var values = [value(one, column), value(other, column)];
    var missing = Number(isNaN(values[0])) - Number(isNaN(values[1]));
    return missing || sign * (values[0] - values[1]) || 0;
  }

  function sort(head) {
    var column = heads.indexOf(head);
    var then = head.getAttribute("data-then");
    var before = head.getAttribute("aria-sort");
    var first = head.hasAttribute("data-down") ? "descending" : "ascending";
    var turned = before === "ascending" ? "descending" : "ascending";
    var order = before ? turned : first;
    var sign = order === "ascending" ? 1 : -1;
    rows.sort(function (one, other) {
      return compared(one, other, column, sign) ||
        (then ? compared(one, other, Number(then), sign) : 0) ||
        compared(one, other, 0, 1);
    });
    rows.forEach(function (row) { body.appendChild(row); });
    heads.forEach(function (other) { other.removeAttribute("aria-sort"); });
    head.setAttribute("aria-sort", order);
  }

  heads.forEach(function (head) {
    var button = document.createElement("button");
    button.type = "button";
    button.textContent = head.textContent;
    button.addEventListener("click", function () { sort(head); });
    head.replaceChildren(button);
  });
  document.getElementById("hint").hidden = false;
}());
