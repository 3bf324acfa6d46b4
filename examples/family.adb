--  Allocators inside an Initialize (RM 4.8, 7.6): a person allocates its child while it is itself created, so the innermost one comes to life
--  first. The Initialize of the fifth raises, and so that of the fourth, which allocates it: both objects are gone, no members of the
--  collection, and nothing is assigned.
with Ada.Finalization; use Ada.Finalization;
with Ada.Text_IO;      use Ada.Text_IO;

procedure Family is
   Count : Integer := 0;

   type Person;
   type Link is access Person;
   type Person is new Limited_Controlled with record
      Number : Integer := 0;
      Child  : Link := null;
   end record;

   overriding procedure Initialize (X : in out Person);
   overriding procedure Finalize (X : in out Person);

   Too_Many : exception;

   procedure Initialize (X : in out Person) is
   begin
      Count := Count + 1;
      X.Number := Count;
      if Count = 5 then
         raise Too_Many;
      elsif Count /= 3 then
         X.Child := new Person;
      end if;
   end Initialize;

   procedure Finalize (X : in out Person) is
   begin
      Put_Line ("person" & Integer'Image (X.Number));
   end Finalize;

   Eldest, Other : Link;
begin
   Eldest := new Person;
   Put_Line ("grandchild" & Integer'Image (Eldest.Child.Child.Number));
   begin
      Other := new Person;
      Put_Line ("other" & Integer'Image (Other.Number));
   exception
      when Too_Many =>
         Put_Line ("none, and " & Boolean'Image (Other = null));
   end;
end Family;
