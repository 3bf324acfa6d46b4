--  A return statement takes the components before the master of the body is left: what a Finalize of the body's objects
--  changes then is not in the value (RM 6.5).
with Ada.Finalization; use Ada.Finalization;
with Ada.Text_IO;      use Ada.Text_IO;

procedure Before_Finalized is
   type R is record
      A : Integer;
   end record;

   type Outer is record
      Inner : R;
   end record;

   V : Outer;

   type Guard is new Limited_Controlled with null record;

   overriding procedure Finalize (X : in out Guard);

   procedure Finalize (X : in out Guard) is
   begin
      V.Inner.A := V.Inner.A + 1;
   end Finalize;

   function F return R is
      G : Guard;
   begin
      return V.Inner;
   end F;
begin
   V.Inner.A := 5;
   Put_Line (Integer'Image (F.A) & Integer'Image (V.Inner.A));
   V.Inner := F;
   Put_Line (Integer'Image (V.Inner.A));
end Before_Finalized;
