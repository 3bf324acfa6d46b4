--  The value of an allocator is evaluated before the new object takes its number, and the variable takes the next one (RM 3.3.1, 4.8).
with Ada.Finalization; use Ada.Finalization;
with Ada.Text_IO;      use Ada.Text_IO;

procedure Numbers is
   type Guard is new Controlled with null record;

   overriding procedure Finalize (X : in out Guard);

   type Ref is access Integer;

   procedure Finalize (X : in out Guard) is
   begin
      Put_Line ("closed");
   end Finalize;

   function Guarded return Integer is
      G : Guard;
   begin
      return 1;
   end Guarded;

   R : Ref := new Integer'(Guarded);
   H : Guard;
begin
   Put_Line (Integer'Image (R.all));
end Numbers;
