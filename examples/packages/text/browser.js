export const show = (text) => {
    document.getElementById("state").textContent = text;
};
