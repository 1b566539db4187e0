$ tacd console -h
prints console.out
