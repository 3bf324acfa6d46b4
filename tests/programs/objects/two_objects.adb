--  Two objects of a block: the second type has an Initialize that prints, and the newer object is finalized first
--  (RM 7.6, 7.6.1).
with Ada.Finalization; use Ada.Finalization;
with Ada.Text_IO;      use Ada.Text_IO;

procedure Two_Objects is
   type A is new Controlled with null record;
   type B is new Controlled with null record;

   overriding procedure Finalize (X : in out A);
   overriding procedure Initialize (X : in out B);
   overriding procedure Finalize (X : in out B);

   procedure Finalize (X : in out A) is
   begin
      Put_Line ("a");
   end Finalize;

   procedure Initialize (X : in out B) is
   begin
      Put_Line ("i");
   end Initialize;

   procedure Finalize (X : in out B) is
   begin
      Put_Line ("b");
   end Finalize;
begin
   declare
      V : A;
      W : B;
   begin
      Put_Line ("in");
   end;
   Put_Line ("out");
end Two_Objects;
