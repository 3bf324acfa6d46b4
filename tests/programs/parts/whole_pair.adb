--  A pair of two leaves, where each type has all three operations: a part is initialized and adjusted before the whole,
--  and finalized behind it (RM 7.6, 7.6.1). docs/meaning.md goes through it.
with Ada.Finalization; use Ada.Finalization;

procedure Whole_Pair is
   type Leaf is new Controlled with null record;

   overriding procedure Initialize (X : in out Leaf);
   overriding procedure Adjust (X : in out Leaf);
   overriding procedure Finalize (X : in out Leaf);

   type Pair is new Controlled with record
      Left, Right : Leaf;
   end record;

   overriding procedure Initialize (X : in out Pair);
   overriding procedure Adjust (X : in out Pair);
   overriding procedure Finalize (X : in out Pair);

   procedure Initialize (X : in out Leaf) is
   begin
      null;
   end Initialize;

   procedure Adjust (X : in out Leaf) is
   begin
      null;
   end Adjust;

   procedure Finalize (X : in out Leaf) is
   begin
      null;
   end Finalize;

   procedure Initialize (X : in out Pair) is
   begin
      null;
   end Initialize;

   procedure Adjust (X : in out Pair) is
   begin
      null;
   end Adjust;

   procedure Finalize (X : in out Pair) is
   begin
      null;
   end Finalize;

   X : Pair;
   Y : Pair := X;
begin
   X := Y;
end Whole_Pair;
